#!/usr/bin/env python3
"""The call `shares` of bin/teplonga: a sweep in shares, side by side here or on hosts."""

import argparse
import sys

import commands
import sharing
from asking import Programs

COMMAND = "bin/teplonga"
ABOUT = """A rule sheet: the answer of `sweep` with the bound K, from all shares of the lengths 1
to K, RACKS for each length. They run side by side on this machine's cores, or with --hosts on
hosts, by GNU parallel over ssh; the proved program merges their reports. A share that fails on a
host is tried on another; one that none answers is no answer."""
EXITS = "Exit status: 0 an answer, 1 a refusal, 2 bad usage, 3 no answer."


def options(args):
    parser = argparse.ArgumentParser(prog=f"{COMMAND} shares", description=ABOUT, epilog=EXITS)
    add = parser.add_argument
    add("bound", metavar="K", help="the bound of the sweep, 1 to 7")
    add("racks", metavar="RACKS", help="how many shares each length has, 1 to 64")
    add("file", nargs="?", metavar="FILE", default="-", help="without it, or for -, standard input")
    add("--hosts", metavar="HOSTS", help="a file with a host a line, as `parallel --sshloginfile`")
    add("-v", action="store_true", help="say on standard error what a refusal means")
    given = parser.parse_args(args)
    if any("\n" in word for word in (given.bound, given.racks)):
        parser.error("a value is one line")
    return given


class Progress:
    """How many shares are done, on standard error where that is a terminal."""

    def __init__(self, count, out=sys.stderr):
        self.count, self.out = count, out

    def __call__(self, done):
        if self.out.isatty():
            end = "\n" if done == self.count else ""
            self.out.write(f"\r\x1b[K{COMMAND}: {done} of {self.count} shares{end}")
            self.out.flush()


def shares(given):
    sheet = commands.read(given.file)
    words = [word.encode("utf-8", "surrogateescape") for word in (given.bound, given.racks)]
    programs = Programs(COMMAND)
    answer = sharing.accepted(programs, sheet, *words)
    if answer is None:
        listed = sharing.all_shares(int(given.bound), int(given.racks))
        if given.hosts:
            commands.read(given.hosts)
            reports = sharing.on_hosts(given.hosts, sheet, listed, sys.stderr.isatty())
        else:
            reports = sharing.here(COMMAND, sheet, listed, Progress(len(listed)))
        answer = sharing.as_sweep(sharing.merged(programs, reports))
    commands.write(None, answer.decode("ascii"))
    return 0


def main(args):
    given = options(args)

    def refused(refusal):
        commands.write(None, refusal.output)
        if given.v or sys.stderr.isatty():
            commands.in_words(refusal)

    return commands.ended(COMMAND, lambda: shares(given), refused)


if __name__ == "__main__":
    sys.exit(main(sys.argv[1:]))
