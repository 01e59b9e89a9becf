"""Who reaches an archive's daemons: nobody from outside without certificates, and with them only who
shows one of the same CA. The commands that make keys are those of docs/MACHINES.md."""

import os
import re
import shutil
import stat
import subprocess
import unittest
from pathlib import Path

from fleets import Shards, need_distributed
from machines import Machines
from support import TOP

LISTENING = "0A"  # The state of a socket in /proc/net/tcp.
LOOPBACK = {"0100007F", "0000000000000000FFFF00000100007F", "00000000000000000000000001000000"}


def setUpModule():
    need_distributed()


def sockets_of(pid):
    """The numbers of a process's sockets."""
    found = set()
    for link in Path(f"/proc/{pid}/fd").iterdir():
        try:
            told = re.fullmatch(r"socket:\[(\d+)\]", os.readlink(link))
        except FileNotFoundError:
            continue
        if told:
            found.add(told[1])
    return found


def listening(pids):
    """Where processes listen: address and port, as /proc/net writes them, by their process."""
    rows = [line.split() for name in ("tcp", "tcp6")
            for line in Path(f"/proc/net/{name}").read_text().splitlines()[1:]]
    owned = {socket: pid for pid in pids for socket in sockets_of(pid)}
    return [(owned[row[9]], *row[1].split(":")) for row in rows
            if row[3] == LISTENING and row[9] in owned]


class Ports(Shards):
    """Without certificates all stay on this machine."""

    def assert_loopback(self, machines):
        self.make("ab")
        self.run_line("^", "open")
        names = ["scheduler", *machines.names]
        for name in names:
            ports = listening(machines.all_of(name))
            self.assertLessEqual({address for _, address, _ in ports}, LOOPBACK, name)
            # The scheduler and its pages; a nanny, its worker, and the worker's pages.
            self.assertGreaterEqual(len(ports), 2 if name == "scheduler" else 3, name)
        self.run_line("^", "close")

    def test_every_port_is_on_loopback(self):
        self.assert_loopback(self.machines)

    def test_what_would_be_reached_in_the_clear_is_refused(self):
        self.make("ab")
        for host in ("0.0.0.0", "10.0.0.1", "::", "example.org"):
            self.run_line("without .tls. all stay on this machine", "worker", "--host", host,
                          "disk-a", status=2)
        told = self.file.read_text()
        for host in ("0.0.0.0", "10.0.0.1", "example.org"):
            self.file.write_text(told.replace("127.0.0.1", host))
            for command in (["scheduler"], ["worker", "disk-a"], ["search", "x"]):
                self.run_line("without .tls. all stay on this machine", *command, status=2)


@unittest.skipUnless(shutil.which("openssl"), "wants openssl")
class Certificates(Ports):
    """With certificates nobody without one of the same CA is answered."""

    LINES = 500

    @classmethod
    def setUpClass(cls):
        super().setUpClass()
        cls.tls = {"ca": "ca.pem", "cert": "node.pem", "key": "node.key"}
        top = Path(cls.enterClassContext(__import__("tempfile").TemporaryDirectory()))
        cls.keys, cls.strangers = top / "own", top / "stranger"
        for folder in (cls.keys, cls.strangers):
            folder.mkdir()
            cls.make_keys(folder)
        cls.own = Machines(cls.keys, "ab", cls.tls)
        cls.addClassCleanup(cls.own.stop)
        cls.own.settle()

    @staticmethod
    def make_keys(folder):
        """A CA and a certificate, as the guide for keys makes them."""
        told = (TOP / "docs/MACHINES.md").read_text("utf-8")
        lines = re.findall(r"(?m)^\$ (.*openssl .*)$", told)
        assert len(lines) == 3, lines
        for line in lines:  # Short keys, which are made sooner.
            subprocess.run(["sh", "-c", line.replace("4096", "2048")], cwd=folder, check=True,
                           capture_output=True)

    def started(self):
        return self.own

    def write_groups(self, *groups, block=None):
        super().write_groups(*groups, block=block)
        self.use(self.tls, self.keys)

    def use(self, tls, folder):
        """Writes other certificates into the archive's file."""
        told = self.file.read_text()
        for name, file in tls.items():
            told = re.sub(rf'(?m)^{name} = .*$', f'{name} = "{folder / file}"', told)
        self.file.write_text(told)

    def test_every_port_is_on_loopback(self):
        self.assert_loopback(self.own)

    def test_keys_are_for_their_owner_alone(self):
        self.assertEqual(stat.S_IMODE((self.keys / "node.key").stat().st_mode), 0o600)

    def test_only_with_a_certificate(self):
        self.make("ab")
        self.load()
        self.assert_whole()
        told = self.file.read_text()
        self.use(self.tls, self.strangers)  # A certificate of another CA.
        self.run_line("missing: a, b .no scheduler at ", "--wait", "2", "search", "line", status=2)
        self.file.write_text(told)
        self.use({"cert": "node.pem", "key": "node.key"}, self.strangers)  # Of another, by our CA.
        self.run_line("missing: a, b .no scheduler at ", "--wait", "2", "search", "line", status=2)
        clear = re.sub(r"(?m)^\[tls\]\n(?:\w+ = .*\n){3}", "", told).replace("tls://", "tcp://")
        self.file.write_text(clear)
        self.run_line("missing: a, b .no scheduler at ", "--wait", "2", "search", "line", status=2)
        self.file.write_text(told)
        self.assert_whole()

    def test_what_would_be_reached_in_the_clear_is_refused(self):
        self.make("ab")
        told = self.file.read_text()
        self.file.write_text(told.replace("tls://", "tcp://"))
        self.run_line("wants? .*tls", "search", "line", status=2)


if __name__ == "__main__":
    unittest.main()
