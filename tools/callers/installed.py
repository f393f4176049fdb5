"""What is checked of an installed library: what lies there, and that pkg-config, CMake, Python and Rust find it."""
import os
import re
import shutil
import subprocess
import sys

from callers.checks import C, OUT, TOP
from callers.library import programs_of

PAGE = "docs/C.md"
BUILD = TOP / "tools/build-c"
PYTHON = TOP / "bindings/python"
RUST = TOP / "bindings/rust"
# What could lead a build or a program to another library.
ELSEWHERE = """CPATH C_INCLUDE_PATH LIBRARY_PATH LD_LIBRARY_PATH LD_PRELOAD PKG_CONFIG_PATH PKG_CONFIG_LIBDIR
    PKG_CONFIG_SYSROOT_DIR CMAKE_PREFIX_PATH wulameron_DIR wulameron_ROOT DESTDIR PYTHONPATH WULAMERON_LIBRARY
    WULAMERON_LIB_DIR""".split()
# The relative prefix, which has a blank.
RELATIVE = "another place/here"
# Words that tools/build-c doesn't take.
WRONG = (["--install"], ["--install", ""], ["--built"], ["place"], ["--install", "place", "--quietly"])
# Which versions a build by CMake may want of a library of this version, and which it may not: newer ones, and those
# with another first number, which is that of the soname.
NEXT = "2.1.0"
FITTING = ("", "2", "2.0", "2.1", "2.1.0 EXACT", "2.0...2.1", "2.0...<3")
OTHERS = ("1", "1.9", "1...<3", "2.0 EXACT", "2.0...<2.1", "2.0...2.0.9", "2.1.1", "2.2...<3", "3")
# Prints the file of the library that was loaded.
LOADED = """import wulameron
print(next(line[line.index("/"):-1] for line in open("/proc/self/maps") if "libwulameron.so" in line))"""
# Has the system's loader find nothing.
UNFOUND = """import ctypes
def fails(name): raise OSError(f"{name} isn't there")
ctypes.CDLL = fails
import wulameron"""
# Prints what is known of the installed module, and whether its bytes are those of the record.
FACTS = """import base64, hashlib
from importlib.metadata import files, metadata
told, module = metadata("wulameron"), next(file for file in files("wulameron") if file.name == "wulameron.py")
digest = base64.urlsafe_b64encode(hashlib.sha256(module.read_binary()).digest()).decode().rstrip("=")
print(told["Version"], told["Summary"], module.hash.value == digest)"""


class Installed:
    """A library that is installed below a prefix, and what its page tells of it."""

    def __init__(self, checks, prefix):
        self.checks, self.room, self.prefix, self.lib = checks, checks.room, prefix, prefix / "lib"
        page = (TOP / PAGE).read_text(encoding="utf-8")
        self.programs = {file: (text, printed) for file, text, _, printed in programs_of(page)}
        self.page = re.search(r"^## Install\n(.*?)^## ", page, re.M | re.S)[1]
        source = (TOP / "crates/wulameron/src/main.rt").read_text(encoding="utf-8")
        self.version = re.search(r'const VERSION: &str = "(.*)";', source)[1]
        self.soname = f"libwulameron.so.{self.version.partition('.')[0]}"
        self.file = self.lib / f"libwulameron.so.{self.version}"
        self.environment = {name: value for name, value in checks.environment.items() if name not in ELSEWHERE}

    def tries(self, holds, what, seen=""):
        """Counts one thing that was tried, and prints a line of it."""
        if self.checks.counts(holds, f"{what}: {seen}"):
            print(what, flush=True)
        return holds

    def ran(self, words, where, **more):
        """Runs something in a folder, with more in its environment."""
        return self.checks.ran(words, cwd=where, env=self.environment | {name: str(more[name]) for name in more})

    def prints(self, what, words, printed, where, **more):
        """Tries whether something ends well and prints this."""
        ran = self.ran(words, where, **more)
        is_right = ran.returncode == 0 and ran.stdout.strip() == printed.strip()
        self.tries(is_right, what, f"status {ran.returncode}, {ran.stdout!r}, {ran.stderr}")

    def needs(self, program, is_shared):
        """Tries whether a program needs the shared library, or doesn't."""
        section = self.ran(["readelf", "-d", program], self.room).stdout
        what = f"readelf -d: that program {'needs' if is_shared else 'does not need'} {self.soname}"
        self.tries((f"[{self.soname}]" in section) == is_shared, what, section)

    def folder(self, file):
        """A new folder with a program of the page, and what that prints."""
        folder, (text, printed) = self.checks.folder(), self.programs[file]
        (folder / file).write_text(text, encoding="utf-8")
        return folder, printed

    @property
    def by_pkg_config(self):
        """What leads pkg-config to the library."""
        return {"PKG_CONFIG_PATH": self.lib / "pkgconfig"}

    @property
    def by_loader(self):
        """What leads the system's loader to the library."""
        return {"LD_LIBRARY_PATH": self.lib}


def below(folder):
    """The files below a folder."""
    return {str(path.relative_to(folder)) for path in folder.rglob("*") if not path.is_dir()}


def files(it):
    """What is installed, and what the shared library exports."""
    listed, there = set(re.findall(r"`((?:include|lib)/[^`]+)`", it.page)), below(it.prefix)
    it.tries(listed == there, f"install: there are the files that {PAGE} lists", sorted(listed ^ there))
    for name in ("libwulameron.so", it.soname):
        link = it.lib / name
        it.tries(link.is_symlink() and link.resolve() == it.file, f"install: {name} leads to {it.file.name}")
    section = it.ran(["readelf", "-d", it.file], it.room).stdout
    it.tries(f"soname: [{it.soname}]" in section, f"readelf -d: the soname is {it.soname}", section)
    lines = it.ran(["nm", "-D", "--defined-only", it.file], it.room).stdout.splitlines()
    exported = {line.split()[-1] for line in lines}
    headers = "".join(path.read_text(encoding="utf-8") for path in (it.prefix / "include").iterdir())
    declared = set(re.findall(r"^(?:uint32_t |const char \*)(wulameron_\w+)\(", headers, re.M))
    it.tries(exported == declared, "nm -D: only the functions of the headers are exported", exported ^ declared)


def places(it):
    """An install below a relative prefix and below DESTDIR, and words that aren't taken."""
    wanted, relative, final = below(it.prefix), it.room / RELATIVE, it.room / "final"
    staged, stubs = it.room / "stage" / final.relative_to("/"), it.room / "stubs"
    stubs.mkdir()
    (stubs / "rt").symlink_to(shutil.which("false"))
    it.environment |= {"PATH": f"{stubs}:{it.environment['PATH']}", "CC": "false"}
    ran = it.ran([BUILD, "--install", RELATIVE, "--built"], it.room)
    it.tries(below(relative) == wanted, "install: a relative prefix, without rt and a compiler", ran.stderr)
    ran = it.ran([BUILD, "--install", final, "--built"], it.room, DESTDIR="stage")
    it.tries(below(staged) == wanted and not final.exists(), "install: DESTDIR stands before the prefix", ran.stderr)
    named = [name for name in wanted if b"/stage/" in (staged / name).read_bytes()]
    it.tries(not named, "install: no file names DESTDIR", named)
    for words in WRONG:
        ran = it.ran([BUILD, *words], it.room)
        is_told = ran.returncode == 1 and not ran.stdout and ran.stderr.startswith("tools/build-c: ")
        it.tries(is_told and not (it.room / "place").exists(), f"install: {words} isn't taken", ran.stderr)


def pkg_config(it):
    """The page's program in C, compiled by the page's commands against the shared and the static library."""
    if not it.checks.has("pkg-config"):
        return
    words, final = ["pkg-config", "--modversion", "wulameron"], it.room / "final"
    it.prints("pkg-config: the version", words, it.version, it.room, **it.by_pkg_config)
    for what, prefix, folder in (
        ("a relative prefix", it.room / RELATIVE, it.room / RELATIVE),
        ("the prefix without DESTDIR", final, it.room / "stage" / final.relative_to("/")),
    ):
        words, path = ["pkg-config", "--variable=prefix", "wulameron"], folder / "lib/pkgconfig"
        it.prints(f"pkg-config: {what}, as a whole path", words, str(prefix), it.room, PKG_CONFIG_PATH=path)
    commands = re.findall(r"^    (cc [^\n]*)$", it.page, re.M)
    kinds = sorted(" -static " in command for command in commands)
    it.tries(kinds == [False, True], f"pkg-config: {PAGE} has a command for each library", commands)
    for command in commands:
        folder, printed = it.folder("lamps.c")
        what = f"pkg-config: {command.partition(' &&')[0]}"
        it.prints(what, ["sh", "-c", command], printed, folder, **it.by_pkg_config, **it.by_loader)
        it.needs(folder / "lamps", is_shared=" -static " not in command)


def cmake(it):
    """The page's program in C, built by the page's lists with each target, and which versions fit."""
    if not it.checks.has("cmake"):
        return
    lists = re.search(r"^```cmake\n(.*?)^```$", it.page, re.M | re.S)[1]
    for target in ("wulameron::wulameron", "wulameron::static"):
        folder, printed = it.folder("lamps.c")
        (folder / "CMakeLists.txt").write_text(lists.replace("wulameron::wulameron", target), encoding="utf-8")
        words = ["sh", "-c", "{ cmake -S . -B out && cmake --build out; } >log 2>&1 || { cat log; exit 1; }; out/lamps"]
        it.prints(f"CMake: a program with {target}", words, printed, folder, CMAKE_PREFIX_PATH=it.prefix)
        it.needs(folder / "out/lamps", is_shared=target == "wulameron::wulameron")
    versions(it)


def versions(it):
    """Which versions a build by CMake finds of the installed library, and of one of another version."""
    folder, lines = it.checks.folder(), ["cmake_minimum_required(VERSION 3.19)", "project(versions NONE)"]
    rules = (C / "wulameron-config-version.cmake.in").read_text(encoding="utf-8")
    rules = rules.replace("@VERSION@", NEXT).replace("@MAJOR@", NEXT.partition(".")[0])
    (folder / "wulameron-config-version.cmake").write_text(rules, encoding="utf-8")
    (folder / "wulameron-config.cmake").write_text("", encoding="utf-8")
    wants = {(wanted, folder): wanted in FITTING for wanted in FITTING + OTHERS}
    wants |= {(f"{it.version} EXACT", it.prefix): True, (f"{it.version}.1", it.prefix): False}
    for wanted, place in wants:
        find = f"find_package(wulameron {wanted} CONFIG QUIET PATHS {place} NO_DEFAULT_PATH)"
        lines += ["unset(wulameron_DIR CACHE)", find, f'message("<{wanted}> ${{wulameron_FOUND}}")']
    (folder / "CMakeLists.txt").write_text("\n".join(lines), encoding="utf-8")
    ran = it.ran(["cmake", "-S", ".", "-B", "out"], folder)
    seen = dict(re.findall(r"^<(.*)> (\d)$", ran.stderr, re.M))
    for (wanted, place), fits in wants.items():
        what = f"{'finds' if fits else 'does not find'} version {it.version if place == it.prefix else NEXT}"
        what = f"CMake: find_package({' '.join(['wulameron', wanted]).strip()}) {what}"
        it.tries(seen.get(wanted) == str(int(fits)), what, ran.stderr)


def python(it):
    """The module, installed by the page's command into a virtual environment, with the installed library."""
    folder, printed = it.folder("refused.py")
    own = folder / "own/bin/python"
    made = it.ran([sys.executable, "-m", "venv", "own"], folder)
    if made.returncode != 0:
        print(f"Python makes no virtual environment here: {made.stdout}{made.stderr}")
        return
    it.environment |= {"PYTHONDONTWRITEBYTECODE": "1", "PIP_NO_INDEX": "1", "PIP_CONFIG_FILE": os.devnull}
    command = re.search(r"`(pip install [^`]+)`", it.page)[1]
    path = f"{own.parent}:{it.environment['PATH']}"
    ran = it.ran(["sh", "-c", command], TOP, PATH=path)
    it.tries(ran.returncode == 0, f"Python: {command}, without a network", f"{ran.stdout}{ran.stderr}")
    described = re.search(r'^description = "(.*)"$', (RUST / "Cargo.toml").read_text(encoding="utf-8"), re.M)[1]
    facts = f"{it.version} {described} True"
    it.prints("Python: the version, the description and the record", [own, "-c", FACTS], facts, folder)
    it.prints("Python: a program with the installed library", [own, "refused.py"], printed, folder, **it.by_loader)
    orders(it, own, folder)
    faults(it, own, folder)


def orders(it, own, folder):
    """From where the module takes the library, each place before the one that is tried before it."""

    def loads(what, file, **more):
        it.prints(f"Python: {what}", [own, "-c", LOADED], str(file), folder, **it.by_loader, **more)

    beside = folder / "beside"
    beside.mkdir()
    shutil.copy(PYTHON / "wulameron.py", beside)
    loads("it takes what the system's loader finds", it.file)
    loads("the module's repository goes before that", OUT / "libwulameron.so", PYTHONPATH=PYTHON)
    (folder / "c").symlink_to(C)
    shutil.copy(it.file, beside / "libwulameron.so")
    loads("a library beside the module goes before both", beside / "libwulameron.so", PYTHONPATH=beside)
    loads("what WULAMERON_LIBRARY names goes first", it.file, PYTHONPATH=beside, WULAMERON_LIBRARY=it.file)


def faults(it, own, folder):
    """What an import says that finds no library."""
    ways = ("`tools/build-c`", "`tools/build-c --install PREFIX`", "WULAMERON_LIBRARY")
    for what, words, more in (
        ("no library is there", UNFOUND, {}),
        ("WULAMERON_LIBRARY names no file", "import wulameron", {"WULAMERON_LIBRARY": folder / "none.so"}),
        ("WULAMERON_LIBRARY names another library", "import wulameron", {"WULAMERON_LIBRARY": "libc.so.6"}),
    ):
        said = it.ran([own, "-c", words], folder, **more).stderr.strip()
        last, count = said.rpartition("\n")[2], said.count("Error: ")
        is_clear = last.startswith("ImportError: wulameron can't load") and all(way in last for way in ways)
        it.tries(is_clear and count == 1, f"Python: one ImportError tells what to do where {what}", said)


def rust(it):
    """The example of the crate, linked by pkg-config, and from where the crate takes the library."""
    if not (it.checks.has("cargo") and it.checks.has("pkg-config")):
        return
    folder = it.checks.folder()
    crate, target = folder / "rust", folder / "target"
    shutil.copytree(RUST, crate, ignore=shutil.ignore_patterns("target"))
    words = ["cargo", "build", "--offline", "--quiet", "--example", "meet", "--target-dir", target]
    ran = it.ran(words, crate, **it.by_pkg_config)
    if not it.tries(ran.returncode == 0, "Rust: an example of the crate is built by pkg-config", ran.stderr):
        return
    example = target / "debug/examples/meet"
    it.needs(example, is_shared=True)
    ran = it.ran([example, "log"], folder, WULAMERON=folder / "none", **it.by_loader)
    it.tries("NoProgram" in ran.stderr, "Rust: the example calls the installed library", ran.stderr)
    ran = it.ran([example, "log"], folder, WULAMERON="", WULAMERON_PROGRAM=folder / "none", **it.by_loader)
    is_told = "WULAMERON_PROGRAM is now WULAMERON" in ran.stderr
    it.tries("NoProgram" in ran.stderr and is_told, "Rust: the old name of the variable counts, and is told", ran.stderr)
    linked(it, next(target.glob("debug/build/wulameron-*/build-script-build")), folder)


def linked(it, script, folder):
    """From where the crate's script takes the library, each place before the one that is tried before it."""
    it.environment |= {"CARGO_MANIFEST_DIR": str(folder / "rust")}
    own, none, blank = folder / "c/out", folder / "no-library", it.room / RELATIVE / "lib"
    nothing = {"PKG_CONFIG_LIBDIR": none}

    def takes(what, kind, place, **more):
        ran = it.ran([script], folder, **more)
        search, *libraries = re.findall(r"^cargo:rustc-link-\w+=(.*)$", ran.stdout, re.M) or [""]
        is_right = os.path.realpath(search.removeprefix("native=")) == str(place) and libraries == [kind]
        it.tries(ran.returncode == 0 and is_right, f"Rust: {what}", f"{ran.stdout}{ran.stderr}")

    def fails(what, *wanted, **more):
        ran = it.ran([script], folder, **more)
        is_clear = ran.returncode == 1 and all(word in ran.stderr for word in wanted)
        it.tries(is_clear, f"Rust: the build tells what to do where {what}", f"{ran.stdout}{ran.stderr}")

    none.mkdir()
    fails("no library is there", "`tools/build-c --install PREFIX`", "PKG_CONFIG_PATH", "WULAMERON_LIB_DIR", **nothing)
    own.parent.mkdir()
    own.symlink_to(OUT)
    takes("it takes what is in the crate's repository", "static=wulameron", OUT, **nothing)
    takes("what pkg-config knows goes before that", "wulameron", it.lib, **it.by_pkg_config)
    takes("so it does in a folder with a blank", "wulameron", blank, PKG_CONFIG_PATH=blank / "pkgconfig")
    named = {"WULAMERON_LIB_DIR": blank} | it.by_pkg_config
    takes("what is in WULAMERON_LIB_DIR goes first", "static=wulameron", blank, **named)
    fails("WULAMERON_LIB_DIR has none", str(none), "WULAMERON_LIB_DIR", WULAMERON_LIB_DIR=none, **it.by_pkg_config)


def install(room):
    """Builds the library and installs it: its prefix."""
    environment = {name: value for name, value in os.environ.items() if name != "DESTDIR"}
    subprocess.run([BUILD, "--install", room / "installed"], check=True, env=environment)
    return room / "installed"


def installed(checks, prefix):
    """What is checked of the library that is installed below a prefix."""
    for part in (files, places, pkg_config, cmake, python, rust):
        part(Installed(checks, prefix))
