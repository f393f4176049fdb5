"""The record of which wrong bodies of wrong-bodies/ were tried, on which code: wrong-bodies/TRIED.

A line of it is a crate, a sum, how many of how many were refused, and a day. The sum is of the crate's sources, definitions
and wrong bodies, and of the sources and definitions of the crates below. A crate is stale if it has another sum now, or if
not all of its wrong bodies were refused.
"""
import datetime
import hashlib
import pathlib

TOP = pathlib.Path(__file__).resolve().parent.parent
OTHERS = TOP / "wrong-bodies"
RECORD = OTHERS / "TRIED"
# How many digits of a sum are kept.
DIGITS = 16


def crates_below():
    """Each crate of crates.txt, lowest first, with itself and all that it stands on."""
    found = {}
    for line in (TOP / "crates.txt").read_text(encoding="utf-8").splitlines():
        head, colon, below = line.partition("#")[0].partition(":")
        if colon:
            crate = head.split()[0]
            found[crate] = {crate}.union(*(found.get(each, ()) for each in below.split()))
    return found


def with_wrong_bodies():
    """The crates that have a folder in wrong-bodies/, in the order of crates.txt."""
    return [crate for crate in crates_below() if (OTHERS / crate).is_dir()]


def sum_of(crate):
    """The sum of what the verdict on a crate's wrong bodies stands on, except proofs."""
    files = list((OTHERS / crate).glob("*.edit"))
    for each in crates_below()[crate]:
        files += [path for part in ("src", "specs") for path in (TOP / "crates" / each / part).rglob("*") if path.is_file()]
    found = hashlib.sha256()
    for path in sorted(files):
        found.update(f"{path.relative_to(TOP)}\n".encode() + hashlib.sha256(path.read_bytes()).digest())
    return found.hexdigest()[:DIGITS]


def records():
    """The lines of the record by their crates: the sum, how many were refused, how many were tried, and the day."""
    lines = RECORD.read_text(encoding="utf-8").splitlines() if RECORD.is_file() else []
    rows = (line.split() for line in lines if not line.startswith("#"))
    return {crate: (told, int(refused), int(tried), day) for crate, told, refused, _, tried, day in rows}


def note(counts):
    """Writes a line for each crate: how many of its wrong bodies were refused, of how many that were tried."""
    known, day = records(), datetime.date.today().isoformat()
    known |= {crate: (sum_of(crate), refused, tried, day) for crate, (refused, tried) in counts.items()}
    head = "# crate, sum of what its verdicts stand on, refused of tried, day (tools/tried.py)\n"
    rows = [(crate, *known[crate]) for crate in with_wrong_bodies() if crate in known]
    lines = [f"{crate} {told} {refused} of {tried} {tried_on}\n" for crate, told, refused, tried, tried_on in rows]
    RECORD.write_text(head + "".join(lines), encoding="utf-8")


def stale():
    """The crates whose wrong bodies weren't tried on this code, or weren't all refused."""
    known = records()

    def is_fresh(crate):
        told, refused, tried, _ = known.get(crate, ("", 0, -1, ""))
        return told == sum_of(crate) and refused == tried == len(list((OTHERS / crate).glob("*.edit")))

    return [crate for crate in with_wrong_bodies() if not is_fresh(crate)]
