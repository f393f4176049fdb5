"""What users name, module by module below `iceoryx2_service`: signatures with first sentences, the settings of builders
with their defaults, and the limits. `tools/look-up --public` prints it.

An item is listed once, at the first of its paths. Laws are left out, and so are the private parts of an item. What
iceoryx2 hides is listed apart.
"""
import re

from items import Items, TOP, module_sources

ROOT = ("iceoryx2_service",)
# The crate whose enums docs/REFUSALS.md has.
ERRORS = "iceoryx2_errors"
PATTERNS = {"Event": "event", "PublishSubscribe": "publish_subscribe", "RequestResponse": "request_response"}
CONFIG = "crates/iceoryx2_description/src/config.rt"
# A sentence that is longer is cut.
LONG = 70
# What of std is implemented so often that it isn't listed, and what is for contracts alone.
UNLISTED = {"", "Debug", "Eq", "Model", "PartialEq", "PartialOrd"}
# What is for users, though no program and no test calls it.
FOR_USERS = {"AttributeVerifier::required_keys", "MessagingPattern::is_same_pattern", "StaticConfig::with_creator"}
SETTER = re.compile(r"\w+\((?:mut )?self(?:, \w+: ([^,()]+))?\) -> Self$")
DERIVED = re.compile(r"^#\[derive\(([^)]*)\)\]", re.M)
# The line of a comment by which the sources mark what iceoryx2 hides.
HIDDEN = re.compile(r"^ */// Hidden\b.*\.$", re.M)
DOC = r"((?:^ *///.*\n|^ *#\[.*\n)*)"


def raw_sources():
    """The text of each module with its comments, by its crate and its path below src/, as `Items` has it."""
    sources = {}
    for path in TOP.glob("crates/*/src/**/*.rt"):
        crate, _, *parts = path.relative_to(TOP / "crates").with_suffix("").parts
        sources[(crate, *([] if parts == ["lib"] else parts))] = path.read_text(encoding="utf-8")
    return sources


def crates_below(crate):
    """A crate with all that it stands on."""
    stands_on = dict(re.findall(r"^(\w+).*?: *(.*)$", (TOP / "crates.txt").read_text(encoding="utf-8"), re.M))
    found, left = set(), [crate]
    while left:
        at = left.pop()
        left += [] if at in found else stands_on.get(at, "").split()
        found.add(at)
    return found


def sentences(comments):
    """The first paragraph of a comment."""
    lines = [line.strip()[3:].strip() for line in comments.splitlines() if line.strip().startswith("///")]
    text = "\n".join(lines).split("\n\n")[0]
    return " ".join(text.split())


def first_sentence(comments):
    """The first sentence of a comment."""
    return re.match(r"(.*?\.(?=\s|$)|.*)", sentences(comments)).group(1)


def brief(comments):
    """The first sentence of a comment, and of a long one what stands before a colon or a semicolon."""
    text = first_sentence(comments)
    cut = re.match(r"(.{25,}?)[:;] ", text) if len(text) > LONG else None
    return cut[1] + "." if cut else text


def line(indent, signature, about):
    """The line of a signature."""
    return f"{indent}{signature}" + (f": {about}" if about else "")


def is_limit(text):
    """Whether a constant's text is that of a number, which the limits have."""
    return re.search(r"= ([\d_]+)$", text)


def head(text):
    """A signature on one line: what stands before a contract or a body."""
    text = re.split(r"\n +(?:ensures|requires|//)| \{\n|\n *\{|;\n", text)[0]
    text = re.sub(r"\s+", " ", text).strip().rstrip(";{").strip()
    return text.replace("pub ", "").replace("( ", "(").replace(", )", ")")


def module_paths(items):
    """The modules below the root by the first of their paths, the shortest ones first."""
    found, left = {}, [((), ROOT)]
    for path, at in left:
        if at in found.values():
            continue
        found["::".join(path)] = at
        names = [(name, items.item(at, (name,))) for name in sorted(items.public[at])]
        left += [((*path, name), each) for name, each in names if each in items.sources]
    return found


def item_paths(items):
    """The first path of each item that users name."""
    found = {}
    for path, at in module_paths(items).items():
        for name in sorted(items.public[at]):
            item = items.item(at, (name,))
            if item is not None:
                found.setdefault(item, "::".join(filter(None, (*ROOT, path, name))))
    return found


class Api:
    """What is listed of each item."""

    def __init__(self):
        self.items = Items(module_sources())
        self.raw = raw_sources()
        library = crates_below(ROOT[0])
        self.callers = [text for module, text in self.items.sources.items() if module[0] not in library]
        self.settings = set(re.findall(r"^ +(\w+): .*,$", (TOP / CONFIG).read_text(encoding="utf-8"), re.M))

    def declaration(self, item):
        """The kind of an item, its comments, and its text from its name on."""
        found = re.search(rf"{DOC}^pub (fn|struct|enum|trait|type|const) (?={item[-1]}\b)", self.raw[item[:-1]], re.M)
        if not found:
            return None
        behind = self.raw[item[:-1]][found.end() :]
        end = r"\n\}|\n\{\}" if re.match(r"[^;]*\{\n", behind) else r";\n|\n\{\}"
        return found[2], found[1], behind[: re.search(end, behind).start()]

    def impls(self, item):
        """The heads and bodies of the implementations of a type."""
        for module, text in self.raw.items():
            if module[0] != item[0]:
                continue
            for found in re.finditer(r"^impl((?s:[^{;]*?)) \{\n((?s:.*?))^\}", text, re.M):
                of = re.sub(r"^<(?:[^<>]|<[^<>]*>)*> ?", "", found[1].strip())
                trait, _, name = of.rpartition(" for ")
                name = re.match(r"[\w:]+", name)
                if name and self.items.item(module, tuple(name[0].split("::"))) == item:
                    yield re.match(r"\w*", trait.split("::")[-1])[0], found[2]

    def methods(self, item, kind, text):
        """The signatures of a type's public methods, or of a trait's, with their comments."""
        found = rf"{DOC}^    (?:pub )?(fn (?s:.*?)(?=\n    \{{| \{{\n|\n +ensures|\n +requires|;$))"
        bodies = [text] if kind == "trait" else [body for trait, body in self.impls(item) if not trait]
        rows = [each for body in bodies for each in re.finditer(found, body, re.M)]
        rows = [each for each in rows if kind == "trait" or re.search(r"^    pub fn", each[0], re.M)]
        return [(head(each[2])[3:], each[1]) for each in rows]

    def is_hidden(self, item):
        """Whether iceoryx2 hides an item."""
        return HIDDEN.search(self.declaration(item)[1])

    def hidden_methods(self, item, path):
        """The lines of the methods that iceoryx2 hides of an item that it shows, below the item's path."""
        kind, _, text = self.declaration(item)
        rows = self.methods(item, kind, text) if kind in ("struct", "enum", "trait") else []
        return [line("", f"{path}::{signature}", brief(of)) for signature, of in rows if HIDDEN.search(of)]

    def is_for_users(self, item, method):
        """Whether a method of an item is for users: a program or a test calls one of this name, or it is listed as such."""
        is_called = any(re.search(rf"(?:\.|::){method}\b", text) for text in self.callers)
        return is_called or f"{item}::{method}" in FOR_USERS

    def lines(self, item, path=""):
        """The lines of an item: its own, with a path before its name, one for each method that iceoryx2 shows, and one
        each for the setters and for what nobody calls."""
        kind, comments, text = self.declaration(item)
        name, about = item[-1], brief(comments)
        if kind == "fn":
            return [] if re.match(rf"{name}(<[^>]*>)?\(\)\n", text) else [line("", head(f"fn {path}{text}"), about)]
        if kind in ("const", "type"):
            return [] if is_limit(text) else [line("", head(f"{kind} {path}{text}"), about)]
        own = head(f"{kind} {path}{text.split('{')[0].split('(')[0]}")
        lines = [line("", own, about + self.inside(item, kind, comments, text))]
        setters, rest = [], []
        for signature, of in self.methods(item, kind, text):
            if HIDDEN.search(of):
                continue
            method = re.match(r"\w+", signature)[0]
            setter = SETTER.match(signature)
            if setter and (method in self.settings or method.startswith("disable_")):
                setters.append(f"{method}({setter[1] or ''})")
            elif kind != "trait" and not self.is_for_users(name, method):
                rest.append(method)
            else:
                lines.append(line("    ", signature, brief(of)))
        lines += [f"    setters: {', '.join(setters)}"] if setters else []
        return lines + ([f"    called by the library alone: {', '.join(rest)}"] if rest else [])

    def inside(self, item, kind, comments, text):
        """What a type has inside, where users may see it, and what it implements of std."""
        body, seen = text.partition("{")[2], ""
        if kind == "enum" and item[0] == ERRORS and item[-1].endswith(("OpenError", "CreateError")):
            seen = " Its values: docs/REFUSALS.md."
        elif kind == "enum":
            seen = " Values: " + ", ".join(re.findall(r"^    (\w+)", re.sub(r"//.*", "", body), re.M)) + "."
        elif kind == "struct":
            fields = re.findall(r"^    pub (\w+):", body, re.M)
            seen = " Fields: " + ", ".join(fields) + "." if fields else ""
        derived = [name.strip() for names in DERIVED.findall(comments) for name in names.split(",")]
        own = [trait for trait, _ in self.impls(item) if trait]
        traits = sorted(set(derived + own) - UNLISTED)
        return seen + (f" ({', '.join(traits)})" if traits else "")


def setting_lines(api):
    """The settings that builders start from: pattern, name, default, and the comment of its setter."""
    text, lines = (TOP / CONFIG).read_text(encoding="utf-8"), []
    for struct, module in PATTERNS.items():
        defaults = re.search(rf"fn default\(\) -> {struct} \{{\n +{struct} \{{\n(.*?)\n +\}}", text, re.S)[1]
        builder = api.items.item(ROOT, ("builder", module, "Builder"))
        bodies = "\n".join(body for trait, body in api.impls(builder) if not trait)
        for name, value in re.findall(r"(\w+): (.*?),", defaults):
            setter = re.search(rf"{DOC}^    pub fn {name}\(", bodies, re.M)
            value = {"None": "none", "true": "yes", "false": "no"}.get(value, value)
            lines.append(f"{module} {name} = {value}: {sentences(setter[1])}")
    return lines


def limit_lines(api, reached):
    """The public constants that are numbers."""
    lines = []
    for item in sorted(reached, key=lambda item: item[-1]):
        found = item[:-1] in api.raw and len(item) > 1 and api.declaration(item)
        value = found and found[0] == "const" and is_limit(found[2])
        if value:
            lines.append(f"{item[-1]} = {int(value[1]):,}: {first_sentence(found[1])}")
    return lines


def module_lines(api, path, listed, hidden):
    """The lines of a module: what is listed nowhere before. What iceoryx2 hides of it is added to the hidden lines."""
    at = api.items.item(ROOT, tuple(path.split("::"))) if path else ROOT
    lines, below = [], f"{path}::" if path else ""
    for name in sorted(api.items.public[at]):
        item = api.items.item(at, (name,))
        if item is None or item in api.items.sources or item in listed or not api.declaration(item):
            continue
        listed.add(item)
        if api.is_hidden(item):
            hidden += api.lines(item, below)
        else:
            lines += api.lines(item)
            hidden += api.hidden_methods(item, f"{below}{name}")
    return lines


SETTINGS = """A builder starts from its node's `Config`, whose `default()` has these. A number is below 2^64.
A setter sets the value with which a create makes the service. It also marks it, so that an open requires it: of a
number at least as much, of all else the same."""
LIMITS = """A longer or greater value is refused where it is made. A slot is below `SLOTS`.
An alignment is a power of two."""
HIDDEN_HEAD = "iceoryx2 hides these from its documentation, and users rarely need them."


def sections():
    """The sections of what users name: settings, limits, each module, and what iceoryx2 hides."""
    api, listed, hidden, found = Api(), set(), [], {}
    for path in module_paths(api.items):
        found[path or "root"] = module_lines(api, path, listed, hidden)
    first = {"settings": [SETTINGS, "", *setting_lines(api)], "limits": [LIMITS, "", *limit_lines(api, listed)]}
    found = {name: lines for name, lines in found.items() if lines}
    return {**first, **found, "hidden": [HIDDEN_HEAD, "", *hidden]}
