"""What the modules of the crates declare and bring in, and what users reach of it."""
import pathlib
import re

TOP = pathlib.Path(__file__).resolve().parent.parent
# The crates that users name.
USERS = ("iceoryx2_service", "iceoryx2_data", "iceoryx2_storage", "iceoryx2_rounds", "iceoryx2_builder")
USE = re.compile(r"^(pub )?use ([^;]*);", re.M)
DECLARED = re.compile(r"^(pub )?(?:fn|struct|enum|trait|type|const|mod) (\w+)", re.M)
BLOCK = re.compile(r"^(?:pub )?(?:fn|struct|enum|trait|type|const|impl)\b.*?(?=^[^\s>){}]|\Z)", re.M | re.S)
GENERICS = r"(?:<(?:[^<>]|<[^<>]*>)*>)?"
OWN_METHODS = re.compile(rf"impl{GENERICS}\s+(\w+){GENERICS}\s+\{{")
METHOD = re.compile(r"^    (?:pub )?(?:fn|type|const) .*?(?=\n +(?:ensures|requires)\b|;| \{\n|\n    \{|\Z)", re.M | re.S)
BODY = re.compile(r"\n +(?:ensures|requires)\b| \{\n|\n\{|;")
PATH = re.compile(r"(?<![\w:])[A-Za-z_]\w*(?:::[A-Za-z_]\w*)*")


def module_sources():
    """The text of each module without comments, by its crate and its path below src/."""
    sources = {}
    for path in TOP.glob("crates/*/src/**/*.rt"):
        crate, _, *parts = path.relative_to(TOP / "crates").with_suffix("").parts
        sources[(crate, *parts)] = re.sub(r"//.*", "", path.read_text(encoding="utf-8"))
    return sources


def used_paths(tree):
    """Each path that the tree of a `use` brings in, behind the name that it has there."""
    head, brace, rest = tree.strip().partition("{")
    if not brace:
        path, _, name = head.partition(" as ")
        parts = tuple(part for part in path.strip().split("::") if part)
        return [(name.strip() or parts[-1], parts)]
    depth, branches = 0, [""]
    for character in rest[: rest.rindex("}")]:
        depth += {"{": 1, "}": -1}.get(character, 0)
        if character == "," and depth == 0:
            branches.append("")
        else:
            branches[-1] += character
    branches = ["" if branch.strip() == "self" else branch.strip() for branch in branches if branch.strip()]
    return [found for branch in branches for found in used_paths(head.strip() + branch)]


class Items:
    """What the modules of the crates declare and bring in. An item is its crate, its modules and its own name."""

    def __init__(self, sources):
        self.sources = {key[:1] if key[1:] == ("lib",) else key: text for key, text in sources.items()}
        self.named, self.public = {}, {}
        for key, text in self.sources.items():
            own = [(is_public, name, key + (name,)) for is_public, name in DECLARED.findall(text)]
            used = [(is_public, *found) for is_public, tree in USE.findall(text) for found in used_paths(tree)]
            self.named[key] = {name: path for _, name, path in used + own}
            self.public[key] = {name for is_public, name, _ in used + own if is_public}

    def item(self, module, path):
        """The item or module that a path names in a module, or `None`."""
        first, *rest = path
        starts = {"crate": module[:1], "self": module, "super": module[:-1]}
        target = self.named[module].get(first, (first,))
        if first in starts:
            at = starts[first]
        elif target == module + (first,) or target in self.sources:
            at = target
        elif target != (first,):
            at = self.item(module, target)
        else:
            return None
        for name in rest:
            is_there = at in self.sources and name in self.named[at]
            at = self.item(at, (name,)) if is_there else None
        return at

    def reached(self):
        """What has a path below one of the crates that users name."""
        found, left = set(), [(crate,) for crate in USERS]
        while left:
            at = left.pop()
            if at is None or at in found:
                continue
            found.add(at)
            left += [self.item(at, (name,)) for name in self.public.get(at, ())]
        return found

    def signatures(self, item):
        """What users read of an item: its head, its public fields, its values, its methods' heads."""
        found = []
        for block in BLOCK.findall(self.sources.get(item[:-1], "")):
            kind, name = re.match(rf"(?:pub )?(\w+){GENERICS} (\w+)", block).groups()
            owner = OWN_METHODS.match(block)
            if owner and owner[1] == item[-1]:
                methods = METHOD.findall(block)
                found += [owner[0]] + [method for method in methods if method.startswith("    pub")]
            elif kind == "impl" or name != item[-1]:
                continue
            elif kind == "struct":
                found += [re.split(r"[{(;]", block)[0]] + re.findall(r"\bpub (?!struct).*?(?=,\n|;\n|\n\})", block, re.S)
            elif kind == "trait":
                found += [BODY.split(block)[0]] + METHOD.findall(block)
            else:
                found.append(block if kind in ("enum", "type") else BODY.split(block)[0])
        return found

    def mentioned(self, item):
        """The items that stand in the signatures of an item."""
        paths = {path for text in self.signatures(item) for path in PATH.findall(text)}
        items = {self.item(item[:-1], tuple(path.split("::"))) for path in paths}
        return {found for found in items if found is not None and found not in self.sources}
