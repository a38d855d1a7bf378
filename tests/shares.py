#!/usr/bin/env python3
"""bin/teplonga merge and shares: the answer of a sweep from its shares, here and on hosts.

    tests/shares.py       needs the built programs; for hosts openssh-server, parallel, rsync
"""

import getpass
import os
import shutil
import signal
import socket
import subprocess
import tempfile
import time
import unittest
from pathlib import Path

TOP = Path(__file__).resolve().parent.parent
NAMES = b"left kind first second lay\n"
PLAIN = NAMES + b"0 B 0 0 none\n0 A 0 - none\n"
SINGLE = NAMES + b"0 A 0 - none\n"
LATE = NAMES + b"0 B 1 1 align\n1 B 2 2 none\n2 A 0 1 none\n1 A 1 - none\n"
SSHD = Path("/usr/sbin/sshd")


def ran(*words, data=b"", top=TOP):
    command = [str(word) for word in (top / "bin" / "teplonga", *words)]
    ended = subprocess.run(command, input=data, capture_output=True, check=False, timeout=120)
    return ended.returncode, ended.stdout, ended.stderr.decode()


def swept(bound, sheet):
    return ran("sweep", data=b"bound\n%s\n\n" % str(bound).encode() + sheet)[:2]


class Here(unittest.TestCase):
    def as_sweep(self, bound, racks, sheet):
        told = ran("shares", bound, racks, data=sheet)
        self.assertEqual(told[:2], swept(bound, sheet), (bound, racks, sheet, told))
        return told[0]

    def test_answers(self):
        for sheet in (PLAIN, SINGLE, LATE, NAMES + b"0 E - - none\n"):
            for bound, racks in ((1, 1), (3, 12), ("00003", "005"), (2, 64)):
                self.assertEqual(self.as_sweep(bound, racks, sheet), 0)

    def test_examples(self):
        for path in sorted((TOP / "examples").glob("*.sweep")):
            bound, sheet = path.read_bytes().split(b"\n\n", 1)
            self.assertEqual(self.as_sweep(bound.decode().split("\n")[1], 7, sheet), 0)

    def test_refusals(self):
        for bound in (0, 8, 99_999, "x", "", "000003", "3 4"):
            self.assertEqual(self.as_sweep(bound, 3, PLAIN), 1)
        many = NAMES + b"0 A 0 63 none\n"
        bad = NAMES + b"0 A 0 - none\n0 A 0 - none\n"
        long = [b"x" * 16_384, b"x" * 16_370]
        for sheet in (many, bad, b"", NAMES, NAMES[:-1], PLAIN + b"\n", *long):
            self.assertEqual(self.as_sweep(7, 3, sheet), 1)
        for racks in (0, 65, 99_999):
            told = ran("shares", 3, racks, data=PLAIN)
            self.assertEqual(told[:2], (1, b"answer line\nrefused-45 0\n"))

    def test_usage(self):
        for words in ((), (3,), ("3\n", 4), (3, 4, "a", "b"), ("--nope", 3, 4)):
            self.assertEqual(ran("shares", *words, data=PLAIN)[0], 2, words)
        self.assertEqual(ran("shares", 3, 4, "no-such-file")[0], 3)

    def test_merge(self):
        reports = [ran("share", 3, 12, share, data=PLAIN)[1] for share in (5, 0)]
        told = ran("merge", data=b"\n".join(reports))
        self.assertEqual(told[:2], (0, reports[1]))
        told = ran("merge", data=b"\n".join([reports[0], reports[1].replace(b" 11\n", b" 011\n")]))
        self.assertEqual(told[:2], (1, b"answer line\nrefused-32 0\n"))


class Broken(unittest.TestCase):
    """A copy of the scripts with a program that fails at one share."""

    def setUp(self):
        self.room = Path(tempfile.mkdtemp())
        self.addCleanup(shutil.rmtree, self.room)
        shutil.copytree(TOP / "scripts", self.room / "scripts")
        shutil.copytree(TOP / "bin", self.room / "bin")
        (self.room / "target" / "bin").mkdir(parents=True)

    def program(self, fails):
        path = self.room / "target" / "bin" / "calls"
        path.write_text(
            f"""#!/bin/sh
input=$(cat; echo x)
case $input in
*'share 3 12 5
'*) {fails} ;;
*) printf '%s' "${{input%x}}" | exec {TOP}/target/bin/calls ;;
esac
"""
        )
        path.chmod(0o755)

    def test_no_answer(self):
        half = "printf 'answer line\\nclear 0\\n'"
        for fails in ("exit 1", "kill -9 $$", "true", "echo 'answer line'", half):
            self.program(fails)
            told = ran("shares", 3, 12, data=PLAIN, top=self.room)
            self.assertEqual(told[:2], (3, b""), (fails, told))
            self.assertTrue(told[2])

    def test_refused_share(self):
        self.program("printf 'answer line\\nrefused-21 0\\n'")
        self.assertEqual(ran("shares", 3, 12, data=PLAIN, top=self.room)[:2], (3, b""))


def missing():
    """What the test of hosts needs and is not there."""
    tools = [name for name in ("ssh", "ssh-keygen", "parallel", "rsync") if not shutil.which(name)]
    return tools + ([] if SSHD.exists() else ["sshd"])


class Host:
    """A host on loopback: an sshd on a port of its own, with a folder of its own as its home."""

    def __init__(self, room, name):
        self.name, self.home = name, room / name
        self.home.mkdir()
        # what is asked of it runs in its home, and is counted
        (room / f"{name}.sh").write_text(
            f'echo >>{room}/{name}.asked\ncd {self.home}\nexec sh -c "$SSH_ORIGINAL_COMMAND"\n'
        )
        self.asked_file = room / f"{name}.asked"
        with socket.socket() as free:
            free.bind(("127.0.0.1", 0))
            self.port = free.getsockname()[1]
        options = [
            f"Port={self.port}",
            "ListenAddress=127.0.0.1",
            f"HostKey={room}/host",
            f"AuthorizedKeysFile={room}/user.pub",
            "StrictModes=no",
            "UsePAM=no",
            "PidFile=none",
            # so that a shell reads nothing of the user's own
            f"SetEnv=HOME={self.home}",
            f"ForceCommand=exec sh {room}/{name}.sh",
        ]
        words = [word for option in options for word in ("-o", option)]
        self.server = subprocess.Popen(
            [SSHD, "-D", "-f", "/dev/null", *words], stderr=subprocess.DEVNULL
        )

    def config(self, room):
        """What ssh has to know of it."""
        return (
            f"Host {self.name}\n HostName 127.0.0.1\n Port {self.port}\n"
            f" User {getpass.getuser()}\n IdentityFile {room}/user\n IdentitiesOnly yes\n"
            f" UserKnownHostsFile {room}/known\n GlobalKnownHostsFile /dev/null\n"
            " LogLevel ERROR\n"
        )

    def known(self, key):
        return f"[127.0.0.1]:{self.port} {key}"

    def listens(self):
        with socket.socket() as tried:
            return tried.connect_ex(("127.0.0.1", self.port)) == 0

    def asked(self):
        """How often something was asked of it."""
        return len(self.asked_file.read_text()) if self.asked_file.exists() else 0

    def die(self):
        end(self.server)

    def fall_silent(self):
        """It keeps its connections, and says nothing any more."""
        told(self.server.pid, signal.SIGSTOP)


def told(process, what):
    """A signal to a process and to all that it started."""
    for each in [process, *below(process)]:
        try:
            os.kill(each, what)
        except ProcessLookupError:
            pass


def end(made):
    """Ends a process and all that it started, at once."""
    if made.poll() is None:
        told(made.pid, signal.SIGKILL)
    made.wait()


def below(process):
    """The processes that a process started, and those that they did."""
    parents = {}
    for path in Path("/proc").glob("[0-9]*/stat"):
        try:
            parents.setdefault(int(path.read_text().rpartition(")")[2].split()[1]), []).append(
                int(path.parent.name)
            )
        except OSError:
            pass
    found = list(parents.get(process, []))
    for each in found:
        found += parents.get(each, [])
    return found


def awaited(is_so):
    """Waits until something is so, for a minute at most."""
    for _ in range(600):
        if is_so():
            return True
        time.sleep(0.1)
    return False


@unittest.skipIf(missing(), "not all that it needs is installed")
class Hosts(unittest.TestCase):
    """Three hosts on loopback; nothing of the machine's own ssh is read or changed."""

    def setUp(self):
        self.room = Path(tempfile.mkdtemp())
        self.addCleanup(shutil.rmtree, self.room)
        for name in ("host", "user"):
            command = ["ssh-keygen", "-q", "-t", "ed25519", "-N", "", "-f", self.room / name]
            subprocess.run(command, check=True)
        if os.geteuid() == 0 and not (rights := Path("/run/sshd")).exists():
            # where an sshd of root's leaves its rights behind
            rights.mkdir()
            self.addCleanup(rights.rmdir)
        self.hosts = []
        for name in ("one", "two", "three"):
            self.hosts.append(Host(self.room, name))
            self.addCleanup(self.hosts[-1].die)
        key = (self.room / "host.pub").read_text()
        (self.room / "known").write_text("".join(host.known(key) for host in self.hosts))
        config = "".join(host.config(self.room) for host in self.hosts)
        (self.room / "config").write_text(config)
        (self.room / "list").write_text("".join(f"2/{host.name}\n" for host in self.hosts))
        self.ssh()
        for host in self.hosts:
            self.assertTrue(awaited(host.listens), f"{host.name} does not listen")

    def ssh(self, *options):
        """An ssh that knows these hosts alone, with options before those that it is given."""
        path = self.room / "bin" / "ssh"
        path.parent.mkdir(exist_ok=True)
        words = [shutil.which("ssh"), "-F", f"{self.room}/config", *options]
        path.write_text(f'#!/bin/sh\nexec {" ".join(words)} "$@"\n')
        path.chmod(0o755)

    def started(self, *words):
        """The command, on these hosts; what GNU parallel keeps of its own goes to our folder."""
        command = [TOP / "bin" / "teplonga", "shares", *words, "--hosts", self.room / "list"]
        made = subprocess.Popen(
            [str(word) for word in command],
            stdin=subprocess.PIPE,
            stdout=subprocess.PIPE,
            stderr=subprocess.PIPE,
            env={
                **os.environ,
                "HOME": str(self.room),
                "PATH": f"{self.room}/bin:{os.environ['PATH']}",
            },
        )
        self.addCleanup(end, made)
        made.stdin.write(PLAIN)
        made.stdin.close()
        made.stdin = None
        return made

    def ended(self, made):
        output, errors = made.communicate(timeout=240)
        self.errors = errors.decode()
        return made.returncode, output

    def busy(self):
        """Waits until a host has the files and begins with shares; the host."""
        asked = {}

        def begins():
            for host in self.hosts:
                if list(host.home.glob(".parallel/tmp/*/share.sh")):
                    asked.setdefault(host, host.asked())
            return [host for host in asked if host.asked() > asked[host] + 1]

        self.assertTrue(awaited(begins), "no host is asked")
        return begins()[0]

    def left(self):
        """What the hosts keep of the shares."""
        return [path for host in self.hosts for path in host.home.glob(".parallel/tmp/*")]

    def test_answer(self):
        self.assertEqual(self.ended(self.started(3, 7)), swept(3, PLAIN), self.errors)
        self.assertTrue(all(host.asked() for host in self.hosts))
        self.assertEqual(self.left(), [])

    def test_one_is_dead(self):
        self.hosts[2].die()
        self.assertEqual(self.ended(self.started(3, 3)), swept(3, PLAIN), self.errors)

    def test_one_dies(self):
        made = self.started(3, 12)
        self.busy().die()
        self.assertEqual(self.ended(made), swept(3, PLAIN), self.errors)

    def test_one_falls_silent(self):
        self.ssh("-o", "ServerAliveInterval=1", "-o", "ConnectTimeout=3")
        made = self.started(3, 7)
        self.busy().fall_silent()
        self.assertEqual(self.ended(made), swept(3, PLAIN), self.errors)

    def test_all_are_dead(self):
        for host in self.hosts:
            host.die()
        self.assertEqual(self.ended(self.started(3, 3)), (3, b""), self.errors)
        self.assertIn("no host answered", self.errors)

    def test_all_die(self):
        made = self.started(3, 12)
        self.busy()
        for host in self.hosts:
            host.die()
        self.assertEqual(self.ended(made), (3, b""), self.errors)
        self.assertIn("no host answered", self.errors)


# takes the words that it is given as GNU parallel does, as far as they are looked at, and runs all
# on one host, which is a folder here
STAND_IN = """#!/bin/sh
set -eu
mkdir host
while [ "$1" != sh ]; do
    [ "$1" != --basefile ] || cp "$2" host
    shift
done
while read -r share; do
    mkdir -p "reports/1/$share"
    (cd host && sh share.sh "$share") >"reports/1/$share/stdout" || exit 1
done <shares
"""


class StandIn(unittest.TestCase):
    """A stand-in for GNU parallel that runs one share after the other, here."""

    def ran(self, edit=("", "")):
        room = Path(tempfile.mkdtemp())
        self.addCleanup(shutil.rmtree, room)
        (room / "parallel").write_text(STAND_IN.replace(*edit))
        (room / "parallel").chmod(0o755)
        (room / "list").write_text("one\n")
        command = [TOP / "bin" / "teplonga", "shares", "3", "4", "--hosts", room / "list"]
        path = f"{room}:{os.environ['PATH']}"
        pipes = {"input": PLAIN, "capture_output": True, "env": {**os.environ, "PATH": path}}
        ended = subprocess.run(command, check=False, timeout=120, **pipes)
        return ended.returncode, ended.stdout

    def test_answer(self):
        self.assertEqual(self.ran(), swept(3, PLAIN))

    def test_no_answer(self):
        run = 'sh share.sh "$share"'
        for other in ("false", "true", f"{run} | head -n 4", f"{run} | sed '$d'"):
            self.assertEqual(self.ran((run, other)), (3, b""), other)


class NoEngine(unittest.TestCase):
    @unittest.skipIf(shutil.which("parallel"), "GNU parallel is installed")
    def test_no_parallel(self):
        told = ran("shares", 3, 12, "--hosts", "/dev/null", data=PLAIN)
        self.assertEqual(told[:2], (3, b""))
        self.assertIn("parallel", told[2])


if __name__ == "__main__":
    if missing():
        print(f"No hosts are tried, without {', '.join(missing())}: this machine alone.")
    unittest.main()
