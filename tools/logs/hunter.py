"""Takes the lock of a log wherever its holder lets go of it after an entry, and keeps it for some time.

hunter.py FILE SECONDS. Writes a line when it begins. It ends with its input, and writes how often it had the lock.
"""
import fcntl
import os
import select
import sys
import time

# How often it tries for the lock after each growth of the file, and how often it looks for one between two looks at
# its input.
TRIES = 20000
LOOKS = 2000


def has_grown(file, size):
    """The length of the file where it grows soon, and otherwise nothing."""
    for _ in range(LOOKS):
        found = os.fstat(file).st_size
        if found != size:
            return found
    return None


def takes(file):
    """Whether it gets the lock."""
    for _ in range(TRIES):
        try:
            fcntl.flock(file, fcntl.LOCK_EX | fcntl.LOCK_NB)
            return True
        except BlockingIOError:
            pass
    return False


def main(path, seconds):
    """Hunts until the input ends."""
    file, count = os.open(path, os.O_RDONLY), 0
    size = os.fstat(file).st_size
    print("begun", flush=True)
    while not select.select([sys.stdin], [], [], 0)[0]:
        if has_grown(file, size) and takes(file):
            count += 1
            time.sleep(seconds)
            fcntl.flock(file, fcntl.LOCK_UN)
        size = os.fstat(file).st_size
    print(count)


if __name__ == "__main__":
    main(sys.argv[1], float(sys.argv[2]))
