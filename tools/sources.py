"""What the crates' sources have to look up: functions with their contracts, types, definitions, crates, modules, and
the wrong bodies. A file is read once, and parsed only if something of it is asked for.
"""
import functools
import re
from collections import namedtuple

from items import TOP

# A function: its path in parts, whether a type or a trait has it, the trait that it implements, its file, its lines
# there (of its comment, of its name, the last one), its comment, and the lines of its signature with its contract.
Function = namedtuple("Function", "parts owned trait file top line last about text")
# A struct, enum, trait, type or constant, with the lines of its declaration.
Type = namedtuple("Type", "parts kind file line last about text")
# A variant of an enum, whose path begins with the enum's, with its lines.
Variant = namedtuple("Variant", "parts file line about text")
# A clause: its word, its name or nothing, its line, and its lines.
Clause = namedtuple("Clause", "word name line text")
# A definition of specs/: its crate, its file's name there, its own name, the modules around it, and its text.
Definition = namedtuple("Definition", "crate spec name file line last about within text")
# A wrong body: its file, whether the gate tries it, its function's name, the file that it changes, and what it changes.
Edit = namedtuple("Edit", "file gate function target pairs")

SEEN = r"(?:pub(?:\(\w+\))? )?"
FUNCTION = re.compile(rf'^((?:    )?){SEEN}(?:const |extern "C" )?fn (\w+)')
TYPE = re.compile(rf"^{SEEN}(struct|enum|trait|type|const) (\w+)")
VARIANT = re.compile(r"^    ([A-Z]\w*)(?=[ ({,]|$)")
OWNER = re.compile(rf"^impl|^{SEEN}trait (\w+)")
CLAUSE = re.compile(r"^\s+(requires|ensures)(?: (\w+))? \{")
NAMED = re.compile(r"^( *)(?:pub )?(?:data|record|abbrev) (?:pub )?([^\s:(){}]+)")
USE = re.compile(r"^ *(?:ghost )?use Rattle\.(\w+)\.specs\.([\w.]+?)(?:\.\{([^}]*)\}| as (\w+));?$", re.M)
TOKEN = re.compile(r"[A-Za-z_]\w*(?:\.[A-Za-z_]\w*)*")


@functools.cache
def lines_of(file):
    """The lines of a file of the repository, by its path there."""
    return (TOP / file).read_text(encoding="utf-8").splitlines()


@functools.cache
def text_of(file):
    """The text of a file."""
    return "\n".join(lines_of(file))


@functools.cache
def files(pattern):
    """The files of a pattern, by their paths in the repository."""
    return sorted(str(path.relative_to(TOP)) for path in TOP.glob(pattern))


def code_files():
    """The files of code."""
    return files("crates/*/src/**/*.rt")


def spec_files():
    """The files of definitions."""
    return [file for file in files("crates/*/specs/**/*.antt") if not file.endswith("/Lib.antt")]


def module_of(file):
    """The path of a file's module, in parts."""
    _, crate, _, *parts = file.removesuffix(".rt").split("/")
    return (crate, *([] if parts in (["lib"], ["main"]) else parts))


def spec_of(file):
    """The crate of a file of definitions, and its name there."""
    _, crate, _, *parts = file.removesuffix(".antt").split("/")
    return crate, ".".join(parts)


def paragraph(lines):
    """The lines of a comment of a definition on one line, without their mark and without headings of sections."""
    return " ".join(line.strip()[2:].strip() for line in lines if not line.strip().startswith("----"))


def sentence(text):
    """The first sentence of a text."""
    return re.match(r"(.*?\.(?=\s|$)|.*)", text)[1]


def head_of(lines, mark):
    """The first comment of a file, line by line, without its mark."""
    found = []
    for line in lines:
        if line.strip().startswith(mark):
            found.append(line.strip()[len(mark):].removeprefix(" "))
        elif found:
            break
    return found


def owner_of(line):
    """The type that an `impl` is for and its trait, or a trait's own name."""
    if not line.startswith("impl"):
        return OWNER.match(line)[1], ""
    head = re.sub(r"^impl(?:<(?:[^<>]|<[^<>]*>)*>)? ?", "", line)
    trait, _, owner = head.rpartition(" for ")
    names = [re.match(r"[\w:]*", name)[0].split("::")[-1] for name in (owner, trait)]
    return names[0], names[1]


def above(lines, at):
    """Where the comment and the attributes above a line begin."""
    while at > 0 and re.match(r"\s*(?://|#\[)", lines[at - 1]) and not lines[at - 1].startswith("//!"):
        at -= 1
    return at


def comment(lines, top, at):
    """The `///` lines above an item, or else its `//` lines, without their mark."""
    above_it = [line.strip() for line in lines[top:at]]
    said = [line[3:].removeprefix(" ") for line in above_it if line.startswith("///")]
    return said or [line[2:].removeprefix(" ") for line in above_it if line.startswith("//")]


def end_of_head(lines, at, indent):
    """The line behind a function's signature and contract, and whether a body follows."""
    depth, promised = 0, False
    for end in range(at, len(lines)):
        line = lines[end]
        promised = promised or CLAUSE.match(line) is not None
        if line in (indent + "{", indent + "{}"):
            return end, True
        depth += line.count("{") + line.count("(") - line.count("}") - line.count(")")
        if not promised and line.endswith((" {", " {}")):
            return end + 1, True
        if depth == 0 and line.endswith(";"):
            return end + 1, False
    return len(lines), False


def end_of_block(lines, at, indent):
    """The last line of a body, by its opening line."""
    for end in range(at, len(lines)):
        if lines[end] == indent + "}" or end == at and lines[end].endswith("{}"):
            return end
    return len(lines) - 1


@functools.cache
def functions(file):
    """The functions of a file."""
    lines, found, owner, trait = lines_of(file), [], "", ""
    for at, line in enumerate(lines):
        if OWNER.match(line):
            owner, trait = owner_of(line)
        elif line.startswith("}"):
            owner, trait = "", ""
        named = FUNCTION.match(line)
        if named:
            indent, name = named.groups()
            head, has_body = end_of_head(lines, at, indent)
            opens = lines[head - 1].endswith((" {", " {}"))
            last = end_of_block(lines, head - 1 if opens else head, indent) if has_body else head - 1
            owned, top = bool(owner and indent), above(lines, at)
            parts = (*module_of(file), *([owner] if owned else []), name)
            text = lines[at : head - 1] + [re.sub(r" \{\}?$", "", lines[head - 1])]
            about = comment(lines, top, at)
            found.append(Function(parts, owned, trait, file, top + 1, at + 1, last + 1, about, text))
    return found


@functools.cache
def types(file):
    """The structs, enums, traits, types and constants of a file."""
    lines, found = lines_of(file), []
    for at, line in enumerate(lines):
        named = TYPE.match(line)
        if named:
            last = end_of_declaration(lines, at)
            about, text = comment(lines, above(lines, at), at), lines[at : last + 1]
            found.append(Type((*module_of(file), named[2]), named[1], file, at + 1, last + 1, about, text))
    return found


@functools.cache
def variants(file):
    """The variants of the enums of a file."""
    lines, found = lines_of(file), []
    for each in types(file):
        for at in range(each.line, each.last if each.kind == "enum" else 0):
            named = VARIANT.match(lines[at])
            if named:
                last = lines.index("    },", at) if lines[at].endswith("{") else at
                about = comment(lines, above(lines, at), at)
                found.append(Variant((*each.parts, named[1]), file, at + 1, about, lines[at : last + 1]))
    return found


def end_of_declaration(lines, at):
    """The last line of a declaration at the margin."""
    for end in range(at, len(lines)):
        if not lines[end].startswith(" ") and lines[end].endswith((";", "}")):
            return end
        if end > at and not lines[end]:
            return end - 1
    return len(lines) - 1


def clauses(function):
    """The clauses of a function's contract."""
    found = []
    for at, line in enumerate(function.text):
        named = CLAUSE.match(line)
        if named:
            found.append(Clause(named[1], named[2] or "", function.line + at, [line]))
        elif found and line.strip() and not line.strip().startswith("//"):
            found[-1].text.append(line)
    return found


@functools.cache
def definitions(file):
    """The definitions of a file of specs/."""
    lines, found, around = lines_of(file), [], []
    for at, line in enumerate(lines):
        indent = len(line) - len(line.lstrip())
        around = [each for each in around if not line.strip() or each[0] < indent]
        if line.lstrip().startswith("module "):
            end = next(end for end in range(at, len(lines)) if lines[end].endswith("where"))
            around.append((indent, at, end + 1))
        named = NAMED.match(line)
        if named:
            last = end_of_definition(lines, at, named[1], named[2])
            within = [each[indent:] for indent, top, end in around for each in lines[top:end]]
            top = next((top for _, top, end in around if end == at), at)
            is_first = not found or named[2] == spec_of(file)[1]
            about = said_above(lines, top) or (" ".join(head_of(lines, "--")) if is_first else "")
            text = lines[at : last + 1]
            found.append(Definition(*spec_of(file), named[2], file, at + 1, last + 1, about, within, text))
    return found


def said_above(lines, at):
    """The comment above a definition, or above the module of which it is the first."""
    top = at
    while top > 0 and lines[top - 1].strip().startswith("--"):
        top -= 1
    return paragraph(lines[top:at])


def end_of_definition(lines, at, indent, name):
    """The last line of a definition: of its type, and of its fields, constructors or equations."""
    last = at
    for end in range(at + 1, len(lines)):
        line = lines[end]
        if not line.strip():
            continue
        if not line.startswith(indent + " ") and not re.match(rf"{indent}{re.escape(name)}[ =]", line):
            break
        last = end if not line.strip().startswith("--") or line.startswith(indent + " ") else last
    return last


@functools.cache
def defined(crate, spec):
    """The definitions of a file of specs/ by their names, and by those of their constructors."""
    file = f"crates/{crate}/specs/{spec.replace('.', '/')}.antt"
    found = {}
    if not (TOP / file).is_file():
        return found
    for each in definitions(file):
        if " data " in f" {each.text[0]} ":
            found.update((name, each) for name in re.findall(r"^ +(\w+) :", "\n".join(each.text[1:]), re.M))
    found.update((each.name, each) for each in definitions(file))
    return found


@functools.cache
def scope(file):
    """What a file brings in of definitions, and has itself: a crate, a file of its specs/ and a name, or no name where
    all of that file has a prefix."""
    found = {}
    for crate, spec, names, alias in USE.findall(text_of(file)):
        if alias:
            found[alias] = (crate, spec, None)
        for name in re.findall(r"[^\s,]+", names):
            found[name] = (crate, spec, name)
    if file.endswith(".antt"):
        own = spec_of(file)
        found.update((each.name, (*own, each.name)) for each in definitions(file))
    return found


def resolved(file, token):
    """The definition that a word names in a file, or nothing."""
    names = token.split(".")
    crate, spec, name = scope(file).get(names[0], (None, None, None))
    if crate is None and names[0] == "Rattle" and len(names) > 4:
        crate, spec, name = names[1], ".".join(names[3:-1]), names[-1]
    name = name or (names[1] if len(names) > 1 else None)
    return defined(crate, spec).get(name) if crate and name else None


def named_in(file, lines):
    """The definitions that lines of a file name, in their order."""
    tokens = dict.fromkeys(token for line in lines for token in TOKEN.findall(re.sub(r"(?://|--).*", "", line)))
    found = [each for each in (resolved(file, token) for token in tokens) if each]
    return list({(each.file, each.line): each for each in found}.values())


@functools.cache
def edits():
    """All wrong bodies, those that the gate tries first."""
    found = []
    for file in files("crates/*/must-fail/*.edit") + files("wrong-bodies/*/*.edit"):
        gate = file.startswith("crates/")
        crate = file.split("/")[1]
        rows = [line.partition(":")[::2] for line in lines_of(file)]
        target = next(f"crates/{crate}/{rest.strip()}" for kind, rest in rows if kind == "file")
        texts = [rest.removeprefix(" ") for kind, rest in rows if kind in ("old", "new")]
        name = file.split("/")[-1].partition("-")[0].split(".")[-1]
        found.append(Edit(file, gate, name, target, tuple(zip(texts[::2], texts[1::2]))))
    return found


def line_of(file, text):
    """The line where a text is in a file, or 0."""
    at = text_of(file).find(text)
    return text_of(file).count("\n", 0, at) + 1 if at >= 0 else 0


@functools.cache
def changed(edit):
    """The functions or constants that a wrong body changes by its name: of several in its file the one with the old
    text; where its file has none, those of its crate, or else what has the old text."""
    line = line_of(edit.target, edit.pairs[0][0])
    items = functions(edit.target) + types(edit.target)
    same = [each for each in items if each.parts[-1] == edit.function]
    having = [each for each in items if each.line <= line <= each.last]
    others = [each for file in files(f"crates/{spec_of(edit.target)[0]}/src/**/*.rt") for each in functions(file)]
    others = [each for each in others if each.parts[-1] == edit.function]
    return [each for each in same if each in having] or same or others or having


def edits_of(item):
    """The wrong bodies that change a function or a constant."""
    return [edit for edit in edits() if spec_of(edit.target)[0] == item.parts[0] and item in changed(edit)]


def proofs_of(function):
    """The files of a function's own proof."""
    crate, *modules, name = function.parts
    owner = modules.pop() if function.owned else ""
    folder = "/".join([*modules, *([owner + function.trait] if owner else []), name])
    # A function that calls itself has a plus before its name there.
    beside = "/".join([*modules, f"+{name}"])
    own = files(f"crates/{crate}/proofs/{folder}/*.antt") + files(f"crates/{crate}/proofs/{beside}/*.antt")
    if own or not owner:
        return own
    # A method is below the module of its type, and a type or a trait with arguments has their names there too.
    named = re.compile(rf"/{owner}(\+[\w+]*)?{function.trait}[\w+]*/{name}/\w+\.antt$")
    return [file for file in files(f"crates/{crate}/proofs/**/*.antt") if named.search(file)]


def is_law(function):
    """Whether a function is there for its clauses alone: it takes nothing, and its body is empty."""
    lines = lines_of(function.file)
    return function.text[0].rstrip().endswith("()") and lines[function.last - 1].strip() == "{}"


@functools.cache
def listed_crates():
    """The headings of crates.txt, each with the lines of its crates: a crate, and what it stands on."""
    found = []
    for line in lines_of("crates.txt"):
        if line.startswith("# "):
            found.append((line[2:], []))
        elif ":" in line:
            head, _, below = line.partition(":")
            found[-1][1].append((head.split()[0], below.split()))
    return [(heading, crates) for heading, crates in found if crates]


def root_of(crate):
    """A crate's root file."""
    return next(iter(files(f"crates/{crate}/src/lib.rt") + files(f"crates/{crate}/src/main.rt")), None)
