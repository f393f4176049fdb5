"""What is checked of the library itself: its headers, its programs in C, the programs of the pages."""
import re

from callers.checks import C, OUT, TOP, VALGRIND

FLAGS = ["-std=c99", "-Wall", "-Wextra", "-Wpedantic", "-Werror", "-O1", "-g", f"-I{C}"]
SANITIZED = ["-fsanitize=address,undefined", "-fno-sanitize-recover=all"]
WRAPPED = ["-Wl,--wrap=malloc,--wrap=realloc,--wrap=calloc"]
IMPATIENT = ["-DPATIENCE=3", "-DLONGEST=65536", "-pthread"]
SHIM = [C / f"{name}.c" for name in ("wulameron", "lines", "transport")]
# The programs, their flags, the sources that they are compiled with beside the archive, and over what they run.
PROGRAMS = (
    ("calls", [], [], ("tables", "logs")),
    ("refused", WRAPPED, [], ("tables", "logs")),
    ("faults", IMPATIENT, SHIM, ("logs",)),
    ("forms", IMPATIENT, SHIM, ("logs",)),
)
PAGES = ("docs/C.md",)


def headers(checks):
    """The headers as C and as C++, and their names beside those of the archive."""
    strict = ["-Wall", "-Wextra", "-Werror", "-fsyntax-only"]
    for name in ("wulameron.h", "wulameron_c.h"):
        if checks.has("c++"):
            checks.builds(["c++", *strict, "-x", "c++", C / name], f"{name} as C++")
        checks.builds([checks.compiler, "-std=c99", *strict, "-x", "c", C / name], name)
    archive = TOP / "crates/wulameron_c/out/libwulameron_c.a"
    exported = set(re.findall(r" T (wulameron_c_\w+)", checks.ran(["nm", "-g", "--defined-only", archive]).stdout))
    declared = set(re.findall(r"uint32_t (wulameron_c_\w+)\(", (C / "wulameron_c.h").read_text(encoding="utf-8")))
    checks.counts(exported == declared, f"the archive and wulameron_c.h differ in {sorted(exported ^ declared)}")
    given = set(re.findall(r" \w (\w+)", checks.ran(["nm", "-D", "--defined-only", OUT / "libwulameron.so"]).stdout))
    named = set(re.findall(r"\b(wulameron_\w+)\(", (C / "wulameron.h").read_text(encoding="utf-8")))
    missing = named - given
    more = given - named - exported
    checks.counts(not missing and not more, f"the shared object lacks {sorted(missing)}, and has {sorted(more)}")


def runs_over(checks, words, name, storages):
    """Runs a program over tables, and with a folder over logs."""
    for storage in storages:
        checks.runs([*words, *([checks.folder()] if storage == "logs" else [])], f"{name} over {storage}")


def programs(checks):
    """The programs in C, plain, sanitized, and under valgrind where that is there."""
    archive = OUT / "libwulameron.a"
    has_valgrind = checks.has("valgrind")
    for name, flags, shim, storages in PROGRAMS:
        source, plain, sanitized = C / f"{name}.c", checks.room / name, checks.room / f"{name}-sanitized"
        if checks.builds([checks.compiler, *FLAGS, *flags, "-o", plain, source, *shim, archive], f"{name}.c"):
            runs_over(checks, [plain], f"{name}.c", storages)
            if has_valgrind:
                runs_over(checks, [*VALGRIND, plain], f"{name}.c under valgrind", storages)
        words = [checks.compiler, *FLAGS, *SANITIZED, *flags, "-o", sanitized, source, *SHIM, archive]
        if checks.builds(words, f"{name}.c, sanitized"):
            runs_over(checks, [sanitized], f"{name}.c, sanitized,", storages)


def shared(checks):
    """calls.c with the shared object."""
    program = checks.room / "calls-shared"
    words = [*FLAGS, "-o", program, C / "calls.c", f"-L{OUT}", "-lwulameron", f"-Wl,-rpath,{OUT}"]
    if checks.builds([checks.compiler, *words], "calls.c with the shared object"):
        runs_over(checks, [program], "calls.c with the shared object", ("tables", "logs"))


def programs_of(page):
    """The programs in C and Python on a page: a file's name, its text, the command that runs it, and what that prints. The
    commands are below the programs of a section, one for each, and below them is what each of them prints."""
    for section in re.split(r"^## ", page, flags=re.M):
        texts = re.findall(r"^```(?:c|python)\n(.*?)^```$", section, re.M | re.S)
        below = re.findall(r"(?:^    [^\n]*\n)+", section.rpartition("\n```\n")[2], re.M)
        if texts and len(below) > 1:
            commands, printed = (re.sub(r"^    ", "", block, flags=re.M) for block in below[:2])
            for text, command in zip(texts, commands.splitlines()):
                yield re.search(r"\w+\.(?:c|py)\b", command)[0], text, command, printed


def pages(checks):
    """The programs of each page: compiled and run by the command below it, each prints what stands below that."""
    for page in PAGES:
        text = (TOP / page).read_text(encoding="utf-8")
        found, wanted = list(programs_of(text)), len(re.findall(r"^```(?:c|python)$", text, re.M))
        checks.counts(0 < len(found) == wanted, f"{page}: {len(found)} of {wanted} programs have a command and what it prints")
        for file, program, command, printed in found:
            folder = checks.folder()
            (folder / "bindings").symlink_to(TOP / "bindings")
            (folder / file).write_text(program, encoding="utf-8")
            ran = checks.ran(["sh", "-c", command], cwd=folder)
            is_right = ran.returncode == 0 and ran.stdout == printed
            checks.counts(is_right, f"{page}: {file} prints {ran.stdout!r}, status {ran.returncode}, {ran.stderr}")
