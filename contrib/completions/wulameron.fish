# Completions of wulameron and its launcher wulameron-hold for fish, written by tools/write-completions.
# Copy this file to ~/.config/fish/completions/wulameron.fish, with a link wulameron-hold.fish to it.

# Whether the words before the last one have this command. With a number, whether that place is the next one to fill.
function __wulameron_at -a command place
    set -l words (commandline -opc)
    if string match -q '*wulameron-hold' -- $words[1]
        set words wulameron hold $words[2..]
    end
    test "$words[2]" = "$command"; or return 1
    test -n "$place"; or return 0
    set -l filled
    set -l option
    for word in $words[3..]
        if test -n "$option"
            set option
        else if contains -- $word --at --node --wait --psql --color --name --pattern --width --from
            set option $word
        else if not string match -q -- '-*' $word
            set -a filled $word
        end
    end
    test (count $filled) -eq (math $place - 1)
end

complete -c wulameron -f
complete -c wulameron-hold -f
complete -c wulameron -n '__wulameron_at ""' -a run -d 'Answers lines of the standard input, in the name of one node'
complete -c wulameron -n '__wulameron_at ""' -a hold -d 'Makes one call, and holds the service until the standard input ends'
complete -c wulameron -n '__wulameron_at ""' -a list -d 'Lists the services of all processes'
complete -c wulameron -n '__wulameron_at ""' -a show -d 'Shows what was agreed for a service, and which nodes have it'
complete -c wulameron -n '__wulameron_at ""' -a nodes -d 'Lists the nodes, and whether each is alive'
complete -c wulameron -n '__wulameron_at ""' -a clean -d 'Releases what dead nodes have'
complete -c wulameron -n '__wulameron_at ""' -a log -d 'Prints the entries of the log'
complete -c wulameron -n '__wulameron_at ""' -a watch -d 'Prints each change of a service as it comes, until it is interrupted'
complete -c wulameron -n '__wulameron_at ""' -a check -d 'Checks whether the log is sound'
complete -c wulameron -n '__wulameron_at ""' -a help -d 'Print this message or the help of the given subcommand(s)'
complete -c wulameron -n '__wulameron_at help 1' -a 'run hold list show nodes clean log watch check'
complete -c wulameron -n '__wulameron_at ""' -l at -r -F -d 'The file of the log, or postgres:NAME under wulameron-postgres'
complete -c wulameron -n '__wulameron_at ""' -l wait -x -d 'How long to try while others hold the log'
complete -c wulameron -n '__wulameron_at ""' -l psql -x -d 'Set by wulameron-postgres: the pipes to psql'
complete -c wulameron -n '__wulameron_at ""' -s h -l help -d 'Print help'
complete -c wulameron -n '__wulameron_at ""' -s V -l version -d 'Print version'
complete -c wulameron -n '__wulameron_at run' -l at -r -F -d 'The file of the log, or postgres:NAME under wulameron-postgres'
complete -c wulameron -n '__wulameron_at run' -l sync -d 'Writes each entry to the disk before it is answered'
complete -c wulameron -n '__wulameron_at run' -l group -d 'Makes files that their group may read and write'
complete -c wulameron -n '__wulameron_at run' -l node -x -d 'The node of this process; by default the lowest free one'
complete -c wulameron -n '__wulameron_at run' -l explain -d 'Explains each reply, as explain does'
complete -c wulameron -n '__wulameron_at run' -l strict -d 'Ends at the first line that is no command'
complete -c wulameron -n '__wulameron_at run' -l escaped -d 'For programs: escapes bytes of names, keys, values and types as %XX, and answers questions'
complete -c wulameron -n '__wulameron_at run' -l no-clean -d 'Doesn\'t release what dead nodes have'
complete -c wulameron -n '__wulameron_at run' -l wait -x -d 'How long to try while others hold the log'
complete -c wulameron -n '__wulameron_at run' -l psql -x -d 'Set by wulameron-postgres: the pipes to psql'
complete -c wulameron -n '__wulameron_at run' -s h -l help -d 'Print help'
complete -c wulameron -n '__wulameron_at run' -s V -l version -d 'Print version'
complete -c wulameron -c wulameron-hold -n '__wulameron_at hold 1' -a 'event pubsub rr' -d 'The pattern of the service'
complete -c wulameron -c wulameron-hold -n '__wulameron_at hold 2' -a 'create open open_or_create' -d 'What the call does'
complete -c wulameron -c wulameron-hold -n '__wulameron_at hold' -l at -r -F -d 'The file of the log, or postgres:NAME under wulameron-postgres'
complete -c wulameron -c wulameron-hold -n '__wulameron_at hold' -l sync -d 'Writes each entry to the disk before it is answered'
complete -c wulameron -c wulameron-hold -n '__wulameron_at hold' -l group -d 'Makes files that their group may read and write'
complete -c wulameron -c wulameron-hold -n '__wulameron_at hold' -l node -x -d 'The node of this process; by default the lowest free one'
complete -c wulameron -c wulameron-hold -n '__wulameron_at hold' -l wait -x -d 'How long to try while others hold the log'
complete -c wulameron -c wulameron-hold -n '__wulameron_at hold' -l psql -x -d 'Set by wulameron-postgres: the pipes to psql'
complete -c wulameron -c wulameron-hold -n '__wulameron_at hold' -s h -l help -d 'Print help'
complete -c wulameron -c wulameron-hold -n '__wulameron_at hold' -s V -l version -d 'Print version'
complete -c wulameron -n '__wulameron_at list' -l at -r -F -d 'The file of the log, or postgres:NAME under wulameron-postgres'
complete -c wulameron -n '__wulameron_at list' -l json -d 'Prints JSON'
complete -c wulameron -n '__wulameron_at list' -l color -x -a 'auto always never' -d 'When to print dead nodes in red; auto means on a terminal without NO_COLOR'
complete -c wulameron -n '__wulameron_at list' -l json-lines -d 'Prints one line of JSON for each'
complete -c wulameron -n '__wulameron_at list' -s q -l quiet -d 'Prints only names, or numbers of nodes'
complete -c wulameron -n '__wulameron_at list' -l watch -d 'Lists them again at each change, until it is interrupted'
complete -c wulameron -n '__wulameron_at list' -l name -x -d 'Lists only services whose names have this text'
complete -c wulameron -n '__wulameron_at list' -l pattern -x -a 'event pubsub rr' -d 'Lists only services of this pattern'
complete -c wulameron -n '__wulameron_at list' -l width -x -d 'Cuts names so that lines fit into this many columns'
complete -c wulameron -n '__wulameron_at list' -l wait -x -d 'How long to try while others hold the log'
complete -c wulameron -n '__wulameron_at list' -l psql -x -d 'Set by wulameron-postgres: the pipes to psql'
complete -c wulameron -n '__wulameron_at list' -s h -l help -d 'Print help'
complete -c wulameron -n '__wulameron_at list' -s V -l version -d 'Print version'
complete -c wulameron -n '__wulameron_at show' -l at -r -F -d 'The file of the log, or postgres:NAME under wulameron-postgres'
complete -c wulameron -n '__wulameron_at show' -l json -d 'Prints JSON'
complete -c wulameron -n '__wulameron_at show' -l color -x -a 'auto always never' -d 'When to print dead nodes in red; auto means on a terminal without NO_COLOR'
complete -c wulameron -n '__wulameron_at show' -l pattern -x -a 'event pubsub rr' -d 'The service\'s pattern, if several services have this name'
complete -c wulameron -n '__wulameron_at show' -l wait -x -d 'How long to try while others hold the log'
complete -c wulameron -n '__wulameron_at show' -l psql -x -d 'Set by wulameron-postgres: the pipes to psql'
complete -c wulameron -n '__wulameron_at show' -s h -l help -d 'Print help'
complete -c wulameron -n '__wulameron_at show' -s V -l version -d 'Print version'
complete -c wulameron -n '__wulameron_at nodes' -l at -r -F -d 'The file of the log, or postgres:NAME under wulameron-postgres'
complete -c wulameron -n '__wulameron_at nodes' -l json -d 'Prints JSON'
complete -c wulameron -n '__wulameron_at nodes' -l color -x -a 'auto always never' -d 'When to print dead nodes in red; auto means on a terminal without NO_COLOR'
complete -c wulameron -n '__wulameron_at nodes' -l json-lines -d 'Prints one line of JSON for each'
complete -c wulameron -n '__wulameron_at nodes' -s q -l quiet -d 'Prints only names, or numbers of nodes'
complete -c wulameron -n '__wulameron_at nodes' -l wait -x -d 'How long to try while others hold the log'
complete -c wulameron -n '__wulameron_at nodes' -l psql -x -d 'Set by wulameron-postgres: the pipes to psql'
complete -c wulameron -n '__wulameron_at nodes' -s h -l help -d 'Print help'
complete -c wulameron -n '__wulameron_at nodes' -s V -l version -d 'Print version'
complete -c wulameron -n '__wulameron_at clean' -l at -r -F -d 'The file of the log, or postgres:NAME under wulameron-postgres'
complete -c wulameron -n '__wulameron_at clean' -l sync -d 'Writes each entry to the disk before it is answered'
complete -c wulameron -n '__wulameron_at clean' -l group -d 'Makes files that their group may read and write'
complete -c wulameron -n '__wulameron_at clean' -l dry-run -d 'Prints what would be released, and changes nothing'
complete -c wulameron -n '__wulameron_at clean' -l wait -x -d 'How long to try while others hold the log'
complete -c wulameron -n '__wulameron_at clean' -l psql -x -d 'Set by wulameron-postgres: the pipes to psql'
complete -c wulameron -n '__wulameron_at clean' -s h -l help -d 'Print help'
complete -c wulameron -n '__wulameron_at clean' -s V -l version -d 'Print version'
complete -c wulameron -n '__wulameron_at log' -l at -r -F -d 'The file of the log, or postgres:NAME under wulameron-postgres'
complete -c wulameron -n '__wulameron_at log' -l from -x -d 'The number of the first entry that is printed'
complete -c wulameron -n '__wulameron_at log' -l follow -d 'Waits for more entries until it is interrupted'
complete -c wulameron -n '__wulameron_at log' -l wait -x -d 'How long to try while others hold the log'
complete -c wulameron -n '__wulameron_at log' -l psql -x -d 'Set by wulameron-postgres: the pipes to psql'
complete -c wulameron -n '__wulameron_at log' -s h -l help -d 'Print help'
complete -c wulameron -n '__wulameron_at log' -s V -l version -d 'Print version'
complete -c wulameron -n '__wulameron_at watch' -l at -r -F -d 'The file of the log, or postgres:NAME under wulameron-postgres'
complete -c wulameron -n '__wulameron_at watch' -l json -d 'Prints JSON'
complete -c wulameron -n '__wulameron_at watch' -l wait -x -d 'How long to try while others hold the log'
complete -c wulameron -n '__wulameron_at watch' -l psql -x -d 'Set by wulameron-postgres: the pipes to psql'
complete -c wulameron -n '__wulameron_at watch' -s h -l help -d 'Print help'
complete -c wulameron -n '__wulameron_at watch' -s V -l version -d 'Print version'
complete -c wulameron -n '__wulameron_at check' -l at -r -F -d 'The file of the log, or postgres:NAME under wulameron-postgres'
complete -c wulameron -n '__wulameron_at check' -l wait -x -d 'How long to try while others hold the log'
complete -c wulameron -n '__wulameron_at check' -l psql -x -d 'Set by wulameron-postgres: the pipes to psql'
complete -c wulameron -n '__wulameron_at check' -s h -l help -d 'Print help'
complete -c wulameron -n '__wulameron_at check' -s V -l version -d 'Print version'
