"""Sources as text: their tokens, imports, lets and statements."""

import re
from collections import defaultdict
from pathlib import Path

TOP = Path(__file__).resolve().parent.parent.parent
WIDTH = 100
TOKEN = re.compile(r"\[\]|[^\s(){}\[\],;]+|[(){}\[\],;]")
IMPORT = re.compile(r"^\s*(?:ghost )?use (\S+?)(?:\.\{([^}]*)\})?(?: as (\S+?))?;?$")
STATEMENT = re.compile(r"^(?:pub )?([^\s:(){}]+) : (.*)$")
LET = re.compile(r"\blet ([^\s:=(){}]+)\s*[:=]")
# these look at everything that is named in front of them
READS_ALL = re.compile(r"\b(omega|search|grind|arith|cc|simp|rw)\b")

# a statement about one function's own proof
OF_ONE = re.compile(r"\bgoal\.|\bTie\.|\bstatement M")


def sources(*endings):
    """The files of the crates with these endings; `rt` keeps its own in a crate's out/."""
    parts = (TOP / "crates").glob("*/[!o]*/**/*")
    return [path for path in sorted(parts) if path.suffix in endings and path.is_file()]


def code(text, mark):
    """The lines without their comments, which begin with the mark."""
    return [re.sub(rf"(^|\s){mark}.*", "", line) for line in text.split("\n")]


def names_in(lines):
    """All names that the lines mention, and the parts of those with dots."""
    found = set()
    for line in lines:
        for token in TOKEN.findall(line):
            found.update([token, *re.split(r"\.|::", token), *re.findall(r"\w+", token)])
    return found


def mentioned(name, names):
    """Is the name used? An operator such as ◌≡◌ is used by its parts."""
    parts = [part for part in name.split("◌") if part]
    return name in names or all(part in names for part in parts)


def imported(line):
    """The names that an import brings, or none."""
    match = IMPORT.match(line)
    if not match:
        return None
    path, names, alias = match.groups()
    if names is None:
        return [alias or re.split(r"\.|::", path)[-1]]
    return [name.split(" as ")[-1].strip() for name in names.split(",") if name.strip()]


def unused_imports(text, mark):
    """(line, name) of each import that nothing uses."""
    lines = code(text, mark)
    uses = [(number, imported(line)) for number, line in enumerate(lines, 1)]
    names = names_in(line for line, (_, use) in zip(lines, uses) if use is None)
    for number, use in uses:
        for name in use or []:
            if not mentioned(name, names):
                yield number, name


def paragraphs(text):
    """(number of the first line, lines) of what stands between blank lines."""
    lines, number = [], 0
    for place, line in enumerate([*code(text, "--"), ""], 1):
        if line.strip():
            number = number if lines else place
            lines.append(line)
        elif lines:
            yield number, lines
            lines = []


def unused_lets(text):
    """(line, name) of each let that nothing behind it can use."""
    for number, lines in paragraphs(text):
        whole = "\n".join(lines)
        for match in LET.finditer(whole):
            rest = whole[match.end():]
            if match[1] not in names_in([rest]) and not READS_ALL.search(rest):
                yield number + whole[:match.start()].count("\n"), match[1]


def statements(text):
    """(line, name, statement) of each law that stands by itself."""
    for number, lines in paragraphs(text):
        match = STATEMENT.match(lines[0])
        if match:
            more = []
            for line in lines[1:]:
                if not line.startswith("    "):
                    break
                more.append(line)
            yield number, match[1], " ".join(" ".join([match[2], *more]).split())


def stated_twice():
    """The places of each statement of some length that stands more than once."""
    places = defaultdict(list)
    for path in sources(".antt"):
        if "/proofs/" in str(path):
            for number, name, statement in statements(path.read_text()):
                if "→" in statement and not OF_ONE.search(statement) and len(statement) > 25:
                    places[statement].append(f"{path.relative_to(TOP)}:{number} {name}")
    return {statement: at for statement, at in places.items() if len(at) > 1}


def too_long(text):
    """The numbers of the lines that are too long and could be broken."""
    for number, line in enumerate(text.split("\n"), 1):
        if len(line) > WIDTH and " " in re.sub(r'"[^"]*"', "", line.strip())[:WIDTH] \
                and not re.match(r"\s*(ghost )?(pub )?use ", line) and '"' not in line:
            yield number
