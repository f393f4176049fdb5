# Completions of wulameron and its launcher wulameron-hold for bash, written by tools/write-completions.
# Source this file, or copy it to /usr/share/bash-completion/completions as wulameron, with a link wulameron-hold to it.
# shellcheck shell=bash

_wulameron() {
  local word option='' command='' found='' is_joined='' takes_options=1 place=1 where last
  local -a words=()
  [[ ${COMP_WORDS[0]##*/} != wulameron-hold ]] || command=hold
  # Bash parts words at = and at a colon. Here they are whole again.
  for word in "${COMP_WORDS[@]:1:COMP_CWORD}"; do
    if [[ ${#words[@]} -gt 0 && ($is_joined || $word == [=:]*) ]]; then
      words[${#words[@]}-1]+=$word
    else
      words+=("$word")
    fi
    [[ $word =~ ^[=:]+$ ]] && is_joined=1 || is_joined=''
  done
  # The words before the last one: the command, the option whose value comes next, and how many places are filled.
  for word in "${words[@]:0:${#words[@]}-1}"; do
    if [[ $option ]]; then
      option=''
    elif [[ $takes_options && $word == -- ]]; then
      takes_options=''
    elif [[ $takes_options && $word == -* ]]; then
      case $word in --at | --node | --wait | --psql | --color | --name | --pattern | --width | --from) option=$word ;; esac
    elif [[ -z $command ]]; then
      command=$word
    else
      place=$((place + 1))
    fi
  done
  last=${words[${#words[@]}-1]}
  if [[ $option ]]; then
    where=$option
  elif [[ $takes_options && $last == --*=* ]]; then
    where=${last%%=*}
  elif [[ $takes_options && $last == -* ]]; then
    where=options
  else
    where=$place
  fi
  case "$command $where" in
    ' 1') found='run hold list show nodes clean log watch check help' ;;
    'help 1') found='run hold list show nodes clean log watch check' ;;
    ' options') found='--at --wait --psql -h --help -V --version' ;;
    ' --at') found='LOG' ;;
    'run options') found='--at --sync --group --node --explain --strict --escaped --no-clean --wait --psql -h --help -V --version' ;;
    'run --at') found='LOG' ;;
    'hold options') found='--at --sync --group --node --wait --psql -h --help -V --version' ;;
    'hold --at') found='LOG' ;;
    'hold 1') found='event pubsub rr' ;;
    'hold 2') found='create open open_or_create' ;;
    'list options') found='--at --json --color --json-lines -q --quiet --watch --name --pattern --width --wait --psql -h --help -V --version' ;;
    'list --at') found='LOG' ;;
    'list --color') found='auto always never' ;;
    'list --pattern') found='event pubsub rr' ;;
    'show options') found='--at --json --color --pattern --wait --psql -h --help -V --version' ;;
    'show --at') found='LOG' ;;
    'show --color') found='auto always never' ;;
    'show --pattern') found='event pubsub rr' ;;
    'nodes options') found='--at --json --color --json-lines -q --quiet --wait --psql -h --help -V --version' ;;
    'nodes --at') found='LOG' ;;
    'nodes --color') found='auto always never' ;;
    'clean options') found='--at --sync --group --dry-run --wait --psql -h --help -V --version' ;;
    'clean --at') found='LOG' ;;
    'log options') found='--at --from --follow --wait --psql -h --help -V --version' ;;
    'log --at') found='LOG' ;;
    'watch options') found='--at --json --wait --psql -h --help -V --version' ;;
    'watch --at') found='LOG' ;;
    'check options') found='--at --wait --psql -h --help -V --version' ;;
    'check --at') found='LOG' ;;
  esac
  if [[ $found == LOG ]]; then
    compopt -o filenames 2>/dev/null
    mapfile -t COMPREPLY < <(compgen -f -- "$2")
  else
    mapfile -t COMPREPLY < <(compgen -W "$found" -- "$2")
  fi
}

complete -F _wulameron wulameron wulameron-hold
