"""The examples of the documents, of the manual and of the help: each is run."""

import os
import re
import shlex
import subprocess
import sys
import unittest

from rubewola import Store

from support import RUBEWOLA, TOP, Stores, mail, mbox


class Examples(Stores):
    """What documents show is what comes."""

    def setUp(self):
        super().setUp()
        (self.folder / "examples").symlink_to(TOP / "examples")
        for name, words in [("rubewola", RUBEWOLA), ("pk_find", [os.environ["RUBEWOLA_PROGRAM"]])]:
            script = self.write(f"bin/{name}", f"#!/bin/sh\nexec {shlex.join(words)} \"$@\"\n")
            script.chmod(0o755)
        self.environment = {**os.environ, "PATH": f"{script.parent}:{os.environ['PATH']}",
                            "HOME": str(self.folder), "XDG_CONFIG_HOME": f"{self.folder}/.config"}

    def said(self, line, status=None):
        ran = subprocess.run(["sh", "-c", line], cwd=self.folder, env=self.environment, check=False,
                             stdout=subprocess.PIPE, stderr=subprocess.STDOUT, encoding="utf-8",
                             stdin=subprocess.DEVNULL)
        if status is not None:
            self.assertEqual(ran.returncode, status, ran.stdout)
        return re.sub(r" in \d+\.\d s$", " in 0.1 s", ran.stdout, flags=re.MULTILINE)

    def run_document(self, name):
        text = (TOP / name).read_text("utf-8")
        self.assertNotRegex(text, r"```text\n(?:\$ .*\n)*\$ rubewola ")
        blocks = re.findall(r"```console\n(.*?)```", text, re.DOTALL)
        self.assertTrue(blocks)
        for block in blocks:
            for command, wanted in re.findall(r"(?m)^\$ (.*)\n((?:(?!\$ ).*\n)*)", block):
                with self.subTest(command):
                    self.assertEqual(self.said(command), wanted)

    def test_administration(self):
        self.run_document("docs/ADMINISTRATION.md")

    def test_guide(self):
        self.run_document("docs/GUIDE.md")

    def test_loaders(self):
        self.run_document("docs/LOADERS.md")

    def test_logs(self):
        self.run_document("docs/LOGS.md")

    def test_mails(self):
        self.run_document("docs/MAILS.md")

    def test_queries(self):
        self.run_document("docs/QUERIES.md")

    def test_stores(self):
        self.run_document("docs/STORES.md")

    def test_each_page_with_examples_is_run(self):
        shown = {f"test_{page.stem.lower()}" for page in TOP.glob("docs/*.md")
                 if "```console\n" in page.read_text("utf-8")}
        self.assertEqual(shown - set(dir(self)), set())

    @staticmethod
    def scripts():
        """The programs that the page of Python shows."""
        text = (TOP / "docs/PYTHON.md").read_text("utf-8")
        return re.findall("```python\n(.*?)```", text, re.DOTALL)

    def test_from_python(self):
        ran = subprocess.run([sys.executable, "-c", self.scripts()[0]], cwd=self.folder, check=True,
                             capture_output=True, encoding="utf-8")
        told = (TOP / "docs/PYTHON.md").read_text("utf-8")
        self.assertIn(f"It prints `{ran.stdout.strip()}`.", told)

    def test_a_store_is_carried_over(self):
        with Store.create(self.folder / "old", 256) as store:
            list(store.add_all(["one\ntwo", "\\", "three"]))
            store.delete(2)
            store.commit()
        line = [sys.executable, "-c", self.scripts()[1], self.folder / "old", self.store, "512"]
        subprocess.run(line, check=True)
        self.assert_found({"one two": [1], "NOT one": [3]})

    def assert_answered(self, rows):
        """What is typed at the program in a store of its own is answered so."""
        (self.folder / "typed").write_text("".join(f"{line}\n" for line, _ in rows), "utf-8")
        self.said("rm -f new; pk_find create new --units 64", status=0)
        self.assertEqual(self.said("pk_find run new < typed", status=0).splitlines(),
                         [reply for _, reply in rows])

    def test_the_readme_s_session(self):
        told = (TOP / "README.md").read_text("utf-8").partition("## A session")[2]
        block = re.search("```text\n(.*?)```", told, re.DOTALL)[1]
        made, _, rest = block.partition("$ pk_find run notes\n")
        typed, _, grown = rest.partition("$ ")
        lines = typed.splitlines()
        self.assert_answered(list(zip(lines[::2], lines[1::2], strict=True)))
        for shown in (made, f"$ {grown}"):
            command, reply = shown[2:].splitlines()
            self.assertEqual(self.said(command), f"{reply}\n")

    def test_the_shell_s_session(self):
        told = (TOP / "docs/SHELL.md").read_text("utf-8")
        block = re.search("```text\n(.*?)```", told, re.DOTALL)[1]
        self.assert_answered([re.split(" {2,}", line) for line in block.splitlines()])

    def test_the_program_s_manual(self):
        told = (TOP / "man/pk_find.1").read_text("utf-8").partition(".Sh EXAMPLES")[2]
        block = told.partition("offset indent\n")[2].partition(".Ed")[0]
        shown = re.findall(r"(?m)^\$ (.*)\n((?:(?!\$ ).*\n)*)", block)
        self.assertEqual(len(shown), 2)
        for command, reply in shown:
            self.assertEqual(self.said(command), reply)

    def run_lines(self, text, least=10):
        """Runs each command line that a text shows, in a home that has what they name."""
        self.write("mail/devel.mbox", mbox(
            mail("code freeze", From="bdale@x.org", Subject="schedule of the freeze",
                 Date="Fri, 14 May 2010 23:30:00 +0000"),
            mail("all for nothing", From="eve@x.org", Subject="advertisement")))
        self.write("Mail/cur/1000.a.host:2,S", mail("schedule", From="ada@x.org"))
        self.write("syslog", "Nov 26 11:15:56 host sshd: failed\n")
        self.write("service.json", '{"level": "error", "time": "2026-11-26T11:15:56Z"}\n')
        self.write("journal", '{"__CURSOR": "c", "__REALTIME_TIMESTAMP": "1", "MESSAGE": "x"}\n')
        lines = re.findall(r"(?m)^ *\$ (.*)$", text)
        self.assertGreaterEqual(len(lines), least)
        for line in lines:
            with self.subTest(line):
                if line.startswith("rubewola serve "):
                    self.serve(line)
                else:
                    self.said(line.replace("journalctl -o json", "cat journal"), status=0)

    def serve(self, line):
        """Runs a server until it has told its address."""
        server = subprocess.Popen(["sh", "-c", f"exec {line}"], cwd=self.folder, encoding="utf-8",
                                  env=self.environment, stdout=subprocess.PIPE,
                                  stderr=subprocess.DEVNULL)
        told = server.stdout.readline()
        server.kill()
        server.communicate()
        self.assertRegex(told, r"\Ahttp://127\.0\.0\.1:\d+/.+/\n\Z")

    def test_the_manual(self):
        told = (TOP / "man/rubewola.1").read_text("utf-8")
        self.run_lines(told[told.index(".Sh EXAMPLES"):])

    def test_the_readme(self):
        told = (TOP / "README.md").read_text("utf-8")
        lines = re.findall(r"(?m)^\$ rubewola .*\n", told)
        self.run_lines("".join(lines), least=4)

    def test_the_help(self):
        self.run_lines(self.said("rubewola --help", status=0))


if __name__ == "__main__":
    unittest.main()
