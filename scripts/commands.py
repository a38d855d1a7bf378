"""What the commands in Python share: files, names, refusals in words, exit status."""

import sys
from pathlib import Path

from asking import Refused, Unanswered
from reading.clauses import Disagreement
from reading.spelling import BadNames

NAMES_HELP = "names for symbols: lines such as `n 0 patch` and `t 3 circuit`"
USER_HELP = "as this user may see it: a rights sheet follows, behind an empty line"


def read(name):
    try:
        return sys.stdin.buffer.read() if name == "-" else Path(name).read_bytes()
    except OSError as error:
        raise Unanswered(
            f"{'standard input' if name == '-' else name}: {error.strerror}"
        ) from error


def read_names(name):
    """The text of a file of names; none where none is named."""
    if not name:
        return ""
    try:
        return read(name).decode("utf-8")
    except UnicodeDecodeError as error:
        raise Unanswered(f"{name}: not text in UTF-8") from error


def write(name, text):
    try:
        if name:
            Path(name).write_text(text, encoding="utf-8")
        else:
            sys.stdout.buffer.write(text.encode("utf-8"))
            sys.stdout.buffer.flush()
    except OSError as error:
        raise Unanswered(f"{name or 'standard output'}: {error.strerror}") from error


def said(command, *lines):
    """Lines on standard error."""
    print("\n".join(f"{command}: {line}" for line in lines), file=sys.stderr)


def ended(command, act, refused, names=None):
    """The exit status of what a command does: 1 for a refusal, which is told, 2 for names that are
    none, 3 where there is no answer.
    """
    try:
        return act()
    except Refused as error:
        refused(error.refusal)
        return 1
    except BadNames as error:
        said(command, f"{names}: {error}")
        return 2
    except (Unanswered, Disagreement) as error:
        said(command, str(error))
        return 3
    except KeyboardInterrupt:
        return 3


def in_words(refusal):
    """A refusal in words, on standard error."""
    print("\n".join(refusal.words()), file=sys.stderr)
