"""A sweep divided into shares that run side by side, here or on hosts; the proved program merges
their reports.
"""

import os
import shutil
import subprocess
import tempfile
import threading
from concurrent.futures import ThreadPoolExecutor, as_completed
from functools import reduce
from pathlib import Path
from typing import NamedTuple

from asking import TOP, Programs, Refused, Unanswered

# how often a share is tried at least, each time on another host if there is one
TRIES = 5
# nobody is asked for a password; a host that is silent for half a minute has failed
SSH = "ssh -o BatchMode=yes -o ConnectTimeout=10 -o ServerAliveInterval=10 -o ServerAliveCountMax=3"


class Share(NamedTuple):
    """One share of the sweep of a length."""

    length: int
    racks: int
    index: int

    @property
    def call(self):
        return b"call length racks share\nshare %d %d %d\n" % self

    @property
    def word(self):
        return f"{self.length}-{self.racks}-{self.index}"

    def __str__(self):
        return f"share {self.index} of {self.racks} of length {self.length}"


def accepted(programs, sheet, bound, racks):
    """Nothing, where the sweep up to the bound and the racks, both as bytes, are accepted. Else the
    refusal is raised; a sheet that only the longer call sheet makes too long is the sweep's to
    answer.

    The share behind the last one is refused 46, after all that the sweep refuses and after 45.
    """
    try:
        values = b" ".join([bound, racks, racks])
        programs.answer("calls", sheet, call=b"call length racks share\nshare " + values + b"\n")
    except Refused as error:
        if error.refusal.number == 46:
            return None
        if error.refusal.number == 31:
            return programs.answer("sweeper", sheet, call=b"bound\n%s\n" % bound)
        raise
    raise Unanswered("the share behind the last one was answered")


def all_shares(bound, racks):
    return [Share(n, racks, i) for n in range(1, bound + 1) for i in range(racks)]


def here(name, sheet, listed, done):
    """The reports of shares, side by side on this machine's cores; `done` is told how many there
    are.
    """
    over = threading.Event()
    programs = Programs(name, is_over=over.is_set, built=["calls"])

    def reported(share):
        try:
            return programs.answer("calls", sheet, call=share.call)
        except Refused as error:
            raise Unanswered(f"{share} was refused-{error.refusal.number}") from error

    with ThreadPoolExecutor(os.cpu_count() or 1) as pool:
        asked = [pool.submit(reported, each) for each in listed]
        try:
            for count, each in enumerate(as_completed(asked), 1):
                each.result()
                done(count)
            return [each.result() for each in asked]
        except BaseException:
            over.set()
            pool.shutdown(cancel_futures=True)
            raise


def command(hosts, room, is_terminal):
    """GNU parallel on the hosts of a file: it copies, starts and starts again elsewhere. Where a
    share has failed on every host, it ends.
    """
    tries = max(TRIES, 1 + len(hosts.read_bytes().splitlines()))
    copied = [word for name in ("calls", "sheet", "share.sh") for word in ("--basefile", name)]
    return [
        "parallel",
        "--will-cite",
        *("--ssh", SSH, "--sshloginfile", hosts),
        *("--retries", str(tries), "--halt", "now,fail=1"),
        *("--workdir", f".parallel/tmp/{room.name}", *copied, "--cleanup"),
        *("--results", "reports", *(["--bar"] if is_terminal else [])),
        *("sh", "share.sh", "{}", "::::", "shares"),
    ]


def on_hosts(hosts, sheet, listed, is_terminal):
    """The reports of shares, from the hosts of a file."""
    if not shutil.which("parallel"):
        raise Unanswered("--hosts needs GNU parallel and rsync (Debian: parallel, rsync)")
    with tempfile.TemporaryDirectory(prefix="teplonga-shares-") as name:
        room = Path(name)
        shutil.copy(TOP / "target" / "bin" / "calls", room)
        shutil.copy(TOP / "scripts" / "share.sh", room)
        (room / "sheet").write_bytes(sheet)
        (room / "shares").write_text("".join(f"{each.word}\n" for each in listed))
        subprocess.run(
            command(Path(hosts).resolve(), room, is_terminal),
            cwd=room,
            stdin=subprocess.DEVNULL,
            stdout=subprocess.DEVNULL,
            check=False,
        )
        return [report(room, each) for each in listed]


def report(room, share):
    """What a host answered, to its end."""
    try:
        text = (room / "reports" / "1" / share.word / "stdout").read_bytes()
    except OSError:
        text = b""
    if not text.startswith(b"answer line\n") or not text.endswith(b"\nend\n"):
        raise Unanswered(f"no host answered {share}")
    return text.removesuffix(b"end\n")


def merged(programs, reports):
    """What all reports come to, by the proved `merge`."""

    def two(one, other):
        return programs.answer("calls", one, other, call=b"call\nmerge\n")

    try:
        return reduce(two, reports)
    except Refused as error:
        raise Unanswered(
            f"a share was refused, or a report is not so written: refused-{error.refusal.number}"
        ) from error


def as_sweep(text):
    """A merged report as the sweep writes it: without the line of numbers and its names."""
    lines = text.splitlines(keepends=True)
    return b"".join(lines[:2] + lines[4:])
