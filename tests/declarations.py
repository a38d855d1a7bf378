#!/usr/bin/env python3
"""The C functions are declared in include/teplonga.h, in the Rust crate and, as they are, in the proved crates: the
same names, parameters and types in each. Also the version and the limits that are written in more than one place.

    tests/declarations.py
"""

import re
import unittest
from pathlib import Path

TOP = Path(__file__).resolve().parent.parent
HEADER = (TOP / "include" / "teplonga.h").read_text()

# types of C as types of Rust
C_TYPES = {
    "const uint8_t *": "*const u8",
    "uint8_t *": "*mut u8",
    "uint64_t *": "*mut u64",
    "const uint64_t *": "*const u64",
    "teplonga_part *": "*mut Part",
    "size_t": "usize",
    "uint64_t": "u64",
    "uint32_t": "u32",
    "void": "()",
}

# slices and references of the proved functions as what C sees
SLICES = {"&[u8]": "*const u8", "&mut [u8]": "*mut u8", "&mut [u64]": "*mut u64", "&[u64]": "*const u64"}
PART = "&mut &[u8]"


def without_comments(text):
    return re.sub(r"/\*.*?\*/|//[^\n]*", "", text, flags=re.S)


def of_header(text=HEADER):
    """Each function's parameters (name, type) and result."""
    found = {}
    for result, name, parameters in re.findall(r"^(\w+) (teplonga_\w+)\(([^)]*)\);", without_comments(text), re.M):
        listed = []
        for parameter in parameters.split(","):
            kind, _, named = re.sub(r"\s+", " ", parameter).strip().rpartition(" ")
            if named.startswith("*"):
                kind, named = kind + " *", named[1:]
            listed.append((named, C_TYPES[kind]))
        found[name] = (listed, C_TYPES[result])
    return found


def of_rust(text):
    """The functions that a Rust file declares in its `extern "C"` blocks."""
    found = {}
    for block in re.findall(r'extern "C" \{(.*?)^ *\}', without_comments(text), re.M | re.S):
        for name, parameters, result in re.findall(r"fn (teplonga_\w+)\((.*?)\)(?: -> (\w+))?;", block, re.S):
            listed = [tuple(part.strip().split(": ")) for part in parameters.split(",") if part.strip()]
            found[name] = (listed, result or "()")
    return found


def of_proved(text):
    """The functions that a proved crate exports; a slice is a pointer and a length, `NAME_length`."""
    found = {}
    pattern = r"pub extern \"C\" fn (teplonga_\w+)(?:<'a>)?\((.*?)\)(?: -> (\w+))?\s*(?:requires|ensures|\{)"
    for name, parameters, result in re.findall(pattern, without_comments(text), re.S):
        listed = []
        for part in filter(None, map(str.strip, parameters.split(","))):
            named, kind = part.split(": ")
            kind = kind.replace("&'a ", "&")
            if kind == PART:
                listed.append((named, "*mut Part"))
            elif kind in SLICES:
                listed += [(named, SLICES[kind]), (f"{named}_length", "usize")]
            else:
                listed.append((named, kind))
        found[name] = (listed, result or "()")
    return found


def together(read, paths):
    found = {}
    for path in paths:
        found.update(read(path.read_text()))
    return found


class Declarations(unittest.TestCase):
    def test_the_header_declares_what_is_proved(self):
        proved = together(of_proved, sorted((TOP / "crates").glob("*/src/*.rt")))
        self.assertGreaterEqual(len(proved), 4)
        self.assertEqual(of_header(), proved)

    def test_the_rust_crate_declares_the_same(self):
        self.assertEqual(of_header(), together(of_rust, sorted((TOP / "rust" / "src").glob("*.rs"))))

    def test_the_benchmark_declares_none_of_its_own(self):
        for path in sorted((TOP / "bench").glob("**/*.rs")):
            self.assertEqual(of_rust(path.read_text()), {}, str(path))

    def test_each_function_is_called_by_the_test_in_C(self):
        # by its name, or handed to a function that calls it
        called = set(re.findall(r"\b(teplonga_\w+)(?:\(|, )", (TOP / "tests" / "faces.c").read_text()))
        self.assertEqual(set(of_header()) - called, set())

    def test_a_difference_is_seen(self):
        changed = HEADER.replace("size_t bound", "uint32_t bound")
        self.assertNotEqual(of_header(changed), of_header())

    def test_version_and_limits(self):
        version = re.search(r'^version = "(.*)"', (TOP / "rust" / "Cargo.toml").read_text(), re.M)[1]
        self.assertIn(f'#define TEPLONGA_VERSION "{version}"\n', HEADER)
        library = (TOP / "rust" / "src" / "lib.rs").read_text()
        for name in ("MOST_RULES", "MOST_TOKENS", "MOST_BOUND"):
            number = re.search(rf"pub const {name}: usize = (\d+);", library)[1]
            self.assertIn(f"#define TEPLONGA_{name} {number}\n", HEADER)


if __name__ == "__main__":
    unittest.main()
