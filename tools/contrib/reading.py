"""The completions and the manual page, which are compared with the helps of the program."""
import re
import shutil
import subprocess

from contrib.launching import differs

# Sources the completions, and completes the last word: $1 is what is completed of it, the others are all words.
COMPLETE = """source "$0" || exit 9
eval "$(complete -p "$2" | sed -n 's/^complete -F \\([a-z_]*\\) .*/complete_by=\\1/p')"
completed=$1
shift
COMP_WORDS=("$@") COMP_CWORD=$(($# - 1))
"$complete_by" "$1" "$completed" "${COMP_WORDS[COMP_CWORD - 1]}"
printf '%s\\n' "${COMPREPLY[@]}"
"""
PATTERNS = ["event", "pubsub", "rr"]
CALLS = ["create", "open", "open_or_create"]
FILES = ["log-1", "log-2", "other"]
# What a shell has to complete, beside the commands and options of the helps.
WORDS = {
    "wulameron hold ": PATTERNS,
    "wulameron hold p": ["pubsub"],
    "wulameron hold event ": CALLS,
    "wulameron hold event open": CALLS[1:],
    "wulameron hold --at log-1 --node 1 event c": ["create"],
    "wulameron hold --at=log-1 --sync rr ": CALLS,
    "wulameron hold --at postgres:x rr ": CALLS,
    "wulameron hold event create ": [],
    "wulameron hold event create lamps ": [],
    "wulameron hold event create lamps max_nodes=2 --no": ["--node"],
    "wulameron-hold ": PATTERNS,
    "wulameron-hold --node 1 event ": CALLS,
    "wulameron-hold --no": ["--node"],
    "wulameron show --pattern ": PATTERNS,
    "wulameron show lamps --pattern r": ["rr"],
    "wulameron list --at lo": FILES[:2],
    "wulameron list --at log-1 --js": ["--json", "--json-lines"],
    "wulameron clean --node": [],
    "wulameron list ": [],
    "wulameron help cl": ["clean"],
    "wulameron no": ["nodes"],
}
# After = bash completes the value alone, and fish the whole word.
BASH_WORDS = {
    "wulameron list --at=lo": FILES[:2],
    "wulameron show --pattern=p": ["pubsub"],
    "wulameron clean -- --": [],
}
# A line that no shell can read.
WRONG_LINE = "\n)\n"


def helps(checks):
    """The commands of the program's help, and the options of each and of the program by itself."""
    text = checks.ran([checks.program, "--help"]).stdout
    rows = text.partition("Commands:\n")[2].partition("\n\n")[0]
    commands = re.findall(r"^  (\S+)", rows, re.MULTILINE)
    options = {}
    for name in ["", *(name for name in commands if name != "help")]:
        said = checks.ran([checks.program, name, "--help"]).stdout if name else text
        options[name] = re.findall(r"(?:^  |, |^ +)(--?[\w-]+)", said.partition("Options:\n")[2], re.MULTILINE)
    return commands, options


def wanted(commands, options):
    """What each beginning of a line has to be completed to."""
    lines = {"wulameron ": commands, "wulameron help ": [name for name in commands if name != "help"]}
    lines |= {f"wulameron {name} -" if name else "wulameron -": flags for name, flags in options.items()}
    return lines | {"wulameron-hold -": options.get("hold", ["the options of hold"])} | WORDS


def bash_completes(checks, file, folder, line):
    """What bash completes a line to. It parts words at = and at a colon."""
    words = [part for word in line.split(" ") for part in re.split(r"([=:]+)", word) if part or not word]
    last = "" if re.fullmatch("[=:]+", words[-1]) else words[-1]
    ran = checks.ran(["bash", "-c", COMPLETE, file, last, *words], cwd=folder)
    return ran.stdout.split() if not ran.stderr else [f"status {ran.returncode}: {ran.stderr}"]


def fish_completes(checks, file, folder, line):
    """What fish completes a line to."""
    ran = checks.ran(["fish", "--no-config", "-c", f"source {file}; complete -C '{line}'"], cwd=folder)
    return [row.partition("\t")[0] for row in (ran.stdout + ran.stderr).splitlines()]


def completes(checks, shell, complete, file, lines):
    """Each of these lines is completed as it has to be."""
    folder = checks.folder()
    for name in FILES:
        (folder / name).write_text("", encoding="utf-8")
    for line, words in lines.items():
        found = complete(checks, file, folder, line)
        checks.counts(f"{shell} completes `{line}`", [differs("the words", sorted(found), sorted(words))])


def parses(checks, shell, file):
    """A shell can read the completions, and finds what is wrong if there is something."""
    status = checks.ran([shell, "-n", file])
    checks.counts(f"{shell} -n {file.name}", [differs("what it says", (status.returncode, status.stderr), (0, ""))])
    wrong = checks.folder() / file.name
    wrong.write_text(file.read_text(encoding="utf-8") + WRONG_LINE, encoding="utf-8")
    status = checks.ran([shell, "-n", wrong])
    checks.counts(f"{shell} -n finds a fault", ["" if status.returncode else "it doesn't"])


def has(command):
    """Whether a command is here; a line is printed if it isn't."""
    found = shutil.which(command) is not None
    if not found:
        print(f"not tried: {command} isn't here")
    return found


def completions(checks):
    """The completions for each shell that is here."""
    folder = checks.contrib / "completions"
    lines = wanted(*helps(checks))
    bash, zsh, fish = folder / "wulameron.bash", folder / "_wulameron", folder / "wulameron.fish"
    parses(checks, "bash", bash)
    completes(checks, "bash", bash_completes, bash, lines | BASH_WORDS)
    if has("zsh"):
        parses(checks, "zsh", zsh)
    if has("fish"):
        parses(checks, "fish", fish)
        completes(checks, "fish", fish_completes, fish, lines)


# ---- The manual page

# Each command that finds what is wrong with a page, and what it may say of this page: it has no date.
LINTS = {
    "man": (["man", "--warnings", "-E", "UTF-8", "-l", "-Tutf8", "-Z"], None),
    "groff": (["groff", "-man", "-ww", "-z", "-Kutf8"], None),
    "mandoc": (["mandoc", "-T", "lint"], r".*missing date.*\n"),
}


def linted(words, path, allowed):
    """What a lint says of a page."""
    ran = subprocess.run([*words, str(path)], check=False, capture_output=True, timeout=60)
    said = ran.stderr.decode(errors="replace") + ("" if "-Z" in words else ran.stdout.decode(errors="replace"))
    return re.sub(allowed, "", said) if allowed else said


def manual(checks):
    """The page has nothing that a lint finds, and each command and option of the helps."""
    path = checks.contrib / "wulameron.1"
    wrong = checks.folder() / path.name
    wrong.write_text(path.read_text(encoding="utf-8") + ".XX wrong\n", encoding="utf-8")
    for name, (words, allowed) in LINTS.items():
        if has(name):
            said, of_wrong = linted(words, path, allowed), linted(words, wrong, allowed)
            checks.counts(f"{name} reads {path.name}", [differs("what it says", said, "")])
            checks.counts(f"{name} finds a wrong line", ["" if "XX" in of_wrong else f"it says {of_wrong!r}"])
    page = path.read_text(encoding="utf-8").replace("\\-", "-")
    commands, options = helps(checks)
    missing = [name for name in commands if name != "help" and f".SS wulameron {name}\n" not in page]
    missing += [flag for flags in options.values() for flag in flags if f"\\fB{flag}\\fR" not in page]
    checks.counts(f"{path.name} has all commands and options", [differs("what it lacks", missing, [])])
