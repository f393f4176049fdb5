"""What is written on the standard error of a line that is no command: it is safe for a terminal, and short."""
import unicodedata

NODE = 71
NOT_A_COMMAND = 2
# Lines that end a strict run: with controls of ASCII, with one of Latin-1, and without an end for long.
LINES = {
    "a line with controls": "\x1b[2J\x07x",
    "a line with controls of Latin-1": "\x7f\x9b2Jx",
    "a line of five megabytes": "x" * 5000000,
}
MOST_BYTES = 400


def controls(text):
    """The controls of a text but for the ends of lines."""
    return sorted({letter for letter in text if unicodedata.category(letter) == "Cc" and letter != "\n"})


def errors(runs):
    """Each line ends the program, which writes what is wrong with it."""
    for what, line in LINES.items():
        path = runs.file("errors")
        ran = runs.run(path, NODE, [line], flags=["--strict"])
        count = len(ran.err.encode())
        runs.need(ran.status == NOT_A_COMMAND and ran.err, f"{what}: status {ran.status}, and {count} bytes of why")
        runs.need(not controls(ran.err), f"{what}: on the standard error are the controls {controls(ran.err)}")
        runs.need(count < MOST_BYTES, f"{what}: the standard error has {count} bytes")
