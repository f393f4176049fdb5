"""What scripts share that use the kit: the builds of programs from a copy of the tree, and the kit's own module."""
import functools
import importlib.util
import pathlib
import re
import shutil
import subprocess
import sys

TOP = pathlib.Path(__file__).resolve().parent.parent
# The line of a program's root file that has its version.
VERSION = re.compile(r'^const VERSION: &str = "(.*)";$', re.MULTILINE)
# How long a program may take for its stored run, in seconds.
SECONDS = 60


class BuildError(Exception):
    """Why a program isn't built, in a line or more."""


def crate_lines(name):
    """The lines of crates.txt of a crate and of those below it, lowest first."""
    lines = (TOP / "crates.txt").read_text(encoding="utf-8").splitlines()
    below = {line.split(":")[0].split()[0]: line for line in lines if ":" in line and not line.startswith("#")}
    if name not in below or not (TOP / "crates" / name / "src/main.rt").is_file():
        raise BuildError("crates.txt has no program of this name")
    left, found = [name], set()
    while left:
        crate = left.pop()
        if crate in below and crate not in found:
            found.add(crate)
            left += below[crate].partition(":")[2].split()
    return [line for crate, line in below.items() if crate in found]


def commit_text():
    """The commit, if the tree is as committed; else that it isn't. Nothing outside of a repository."""
    def git(*words):
        ran = subprocess.run(["git", *words], cwd=TOP, capture_output=True, text=True, check=False)
        return ran.stdout.strip() if ran.returncode == 0 else None

    commit = git("rev-parse", "--short=12", "HEAD")
    if commit is None:
        return ""
    return ", with changes that aren't committed" if git("status", "--porcelain") else f", commit {commit}"


def copy_tree(name, to, more):
    """Copies what a program is built from. Behind the version of the copied program stand these words and the commit."""
    lines = crate_lines(name)
    for crate in (line.split(":")[0].split()[0] for line in lines):
        shutil.copytree(TOP / "crates" / crate, to / "crates" / crate, ignore=shutil.ignore_patterns("out", "must-fail"))
    (to / "crates.txt").write_text("\n".join(lines) + "\n", encoding="utf-8")
    shutil.copy(TOP / "HANDLES", to)
    folder = to / "crates" / name
    root, stored = folder / "src/main.rt", folder / "stdout"
    text = root.read_text(encoding="utf-8")
    version = VERSION.search(text)
    if version:
        told = f"{version[1]}{more}{commit_text()}"
        root.write_text(VERSION.sub(f'const VERSION: &str = "{told}";', text), encoding="utf-8")
        stored.write_text(stored.read_text(encoding="utf-8").replace(version[1], told), encoding="utf-8")
    return folder


def stored_file(folder, name):
    """The bytes of a file beside a program's sources, or none."""
    path = folder / name
    return path.read_bytes() if path.is_file() else b""


def check_sample(folder, program):
    """Runs a program on its sample: it has to print what is stored, and end with the stored status."""
    words = stored_file(folder, "args").decode().splitlines()
    wanted = int(stored_file(folder, "status") or 0)
    ran = subprocess.run([program, *words], input=stored_file(folder, "stdin"), capture_output=True, timeout=SECONDS, check=False)
    if (ran.stdout, ran.returncode) != (stored_file(folder, "stdout"), wanted):
        printed = (ran.stdout + ran.stderr).decode(errors="replace")
        raise BuildError(f"its sample ended with status {ran.returncode} and not {wanted}, or printed otherwise:\n{printed}")


def require_kit():
    """Ends if the kit isn't one that TOOLCHAIN lists."""
    if subprocess.run([TOP / "tools/check-toolchain"], check=False).returncode:
        sys.exit(1)


def kit_module():
    """The kit's own module, which knows the crates and their sums. It takes a crate's sum anew for each crate above it,
    which is minutes for all of them, so here each is taken once."""
    page = subprocess.run(["rt", "doc"], capture_output=True, text=True, check=True).stdout.strip()
    spec = importlib.util.spec_from_file_location("rtlib", pathlib.Path(page).parent / "bin/rtlib.py")
    module = importlib.util.module_from_spec(spec)
    spec.loader.exec_module(module)
    module.Crate.stamp = functools.cache(module.Crate.stamp)
    return module


def put(program, folder):
    """Puts a built program into a folder of the tree, in one step, so that one that runs meanwhile stays whole."""
    folder.mkdir(exist_ok=True)
    place = folder / program.name
    part = folder / f".{program.name}.part"
    shutil.copy(program, part)
    part.replace(place)
    return place.relative_to(TOP)
