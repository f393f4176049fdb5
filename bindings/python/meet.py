"""A process that meets others over a log: `python3 meet.py FILE`, once in each of two terminals. It reads lines such as

    create lamps 4      creates the service of events `lamps` with room for four listeners
    open lamps 3        opens it for at least three

and answers each with what was agreed, or with why it is refused. At the end of its input it closes all.
"""
from __future__ import annotations

import sys

import wulameron as w


def answer(session: w.Session, slot: int, line: str) -> str:
    """Asks for a service, and tells what came of it."""
    words = line.split()
    if len(words) != 3:
        raise ValueError("a line is `create NAME LISTENERS` or `open NAME LISTENERS`")
    how, name, listeners = words
    session.begin(w.EVENT, w.CREATE if how == "create" else w.OPEN, session.node, name)
    session.set_number(w.MAX_LISTENERS, int(listeners))
    session.send(slot)
    return f"node {session.node}: {name} has room for {session.number(slot, w.MAX_LISTENERS)} listeners"


def main() -> None:
    """Answers each line of the input, for a slot of its own."""
    with w.Session(sys.argv[1]) as session:
        slot = 0
        for line in sys.stdin:
            try:
                reply = answer(session, slot, line)
                slot += 1
            except w.Refused as refused:
                reply = f"refused: {refused.name}; {refused.advice}"
            except (w.WulameronError, ValueError) as error:
                reply = str(error)
            print(reply, flush=True)


if __name__ == "__main__":
    main()
