"""The names and numbers of settings and refusals for programs in C, Python and Rust, beside the rows of the code, and the
version of what is installed beside the one that the program prints."""
import re

# What a setting takes: in the rows of lines, and in bindings/c/words.h.
KINDS = {"Number": "NUMBER", "Truth": "FLAG", "Event": "EVENT", "Length": "LENGTH", "Alignment": "ALIGNMENT",
         "Type": "TYPE"}
# The patterns by their numbers, as the rows of lines and the refusals have them.
PATTERNS = (("event", "Event"), ("publish_subscribe", "PublishSubscribe"), ("request_response", "RequestResponse"))


def settings_in_code(source):
    """Each setting of each pattern's rows: the pattern's number, its name, and what it takes."""
    for number, (pattern, _) in enumerate(PATTERNS, 1):
        rows = re.search(rf"macro_rules! {pattern}_rows \{{(.*?)\n\}}", source, re.S).group(1)
        for name, kind in re.findall(r'"(\w+)" (\w+) \w+;', rows):
            yield number, name, KINDS[kind]


def numbers_in_words(source):
    """The number of each setting that a call may give, as words.h has it."""
    numbers = {}
    for number, pattern, kind, name in re.findall(r'\{(\d+), (\d), (\w+), "(\w+)"\}', source):
        if kind in KINDS.values():
            for each in (int(pattern),) if pattern != "0" else (1, 2, 3):
                numbers[each, name, kind] = int(number)
    return numbers


def numbers_in_python(source):
    """The constants of the module."""
    for names, values in re.findall(r"^((?:[A-Z_]+, )*[A-Z_]+) = ([\d, ]+)$", source, re.M):
        yield from zip(names.split(", "), map(int, values.split(", ")))


def differences(top):
    """Where the numbers of settings, the names of refusals and the version for callers differ from one another, or from
    the code."""
    text = lambda path: (top / path).read_text(encoding="utf-8")
    numbers = numbers_in_words(text("bindings/c/words.h"))
    told = [f"bindings/c/words.h and negotiate_lines differ in {row}"
            for row in numbers.keys() ^ set(settings_in_code(text("crates/negotiate_lines/src/setting_terms.rt")))]
    header = dict(re.findall(r"#define WULAMERON_(\w+) (\d+)u", text("bindings/c/wulameron.h")))
    module = dict(numbers_in_python(text("bindings/python/wulameron.py")))
    builders = text("bindings/rust/src/builders.rs")
    crate = set(re.findall(r"\b([a-z_]+) (\d+) (?:u64|bool|Option<\w+>|TypeDetail);", builders))
    for (_, name, _), number in numbers.items():
        constant, digits = name.upper(), str(number)
        if header.get(constant) != digits or module.get(constant) != number or (name, digits) not in crate:
            told.append(f"bindings: {name} isn't {number} everywhere")
    errors = text("crates/iceoryx2_errors/src/refusal.rt")
    own = text("bindings/rust/src/errors.rs")
    for enum, names in re.findall(r"^ +\w+ (\w+(?:Open|Create)Error) \{([^}]*)\}", errors, re.M):
        found = re.search(rf"^    {enum} \d+: ([^;]*);", own, re.M)
        if not found or found.group(1).split() != names.split():
            told.append(f"bindings/rust has other errors of {enum} than iceoryx2_errors")
    printed = re.search(r'const VERSION: &str = "(.*)";', text("crates/wulameron/src/main.rt"))[1]
    version = re.search(r'^version = "(.*)"$', text("bindings/rust/Cargo.toml"), re.M)[1]
    if version != printed:
        told.append(f"bindings/rust/Cargo.toml has version {version}, and wulameron prints {printed}")
    return sorted(told)
