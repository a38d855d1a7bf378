"""Writes the cases for the programs and the calls, and what the reference answers to them.

    make_checks.py STDIN STDOUT           write the two files
    make_checks.py --check STDIN STDOUT   compare with them; status 1 if not the same

STDIN: each case is a header of 6 bytes (length of the case in five digits,
byte 10), then the case (make_programs.py, make_calls.py). The next case
follows at once.

STDOUT: the outputs of all cases.

Both modes have status 1 too where a case made by hand is not answered as it
was meant to be; then nothing is written.
"""

import sys
from pathlib import Path

import make_calls
import make_programs


def framed(text):
    assert len(text) < 100_000
    return b"%05d\n" % len(text) + text


def kept(paths, texts, check):
    """Writes the texts, or compares them with what is there; status 1 if not the same."""
    status = 0
    for path, text in zip(paths, texts):
        if not check:
            path.write_bytes(text)
            print(f"{path}: {len(text)} bytes written")
        elif path.is_file() and path.read_bytes() == text:
            print(f"{path}: the same")
        else:
            print(f"{path}: differs")
            status = 1
    return status


def main(arguments):
    check = "--check" in arguments
    paths = [Path(each) for each in arguments if each != "--check"]
    if len(paths) != 2:
        print("usage: make_checks.py [--check] STDIN STDOUT", file=sys.stderr)
        return 2
    inputs, outputs = [], []
    try:
        for part in (make_programs, make_calls):
            asked, answered = part.made()
            inputs += asked
            outputs += answered
    except ValueError as wrong:
        print(wrong)
        return 1
    return kept(paths, (b"".join(map(framed, inputs)), b"".join(outputs)), check)


if __name__ == "__main__":
    sys.exit(main(sys.argv[1:]))
