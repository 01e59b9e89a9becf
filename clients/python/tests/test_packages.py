"""Packages: what is in them, and that what they put in place runs."""

import base64
import hashlib
import importlib.util
import os
import re
import shutil
import subprocess
import sys
import tarfile
import unittest
import zipfile

from rubewola.commands import VERSION

from support import TOP, Stores, mail, mbox

PROGRAM = os.environ["RUBEWOLA_PROGRAM"]
# What the tests set for the client, which an installed one does not need.
BARE = {name: value for name, value in os.environ.items()
        if name not in ("RUBEWOLA_PROGRAM", "PYTHONPATH")}


class Packages(Stores):
    """Made in the folder of the test."""

    def make(self, target):
        line = ["make", "--silent", target, f"PROGRAM={PROGRAM}", f"PACKAGES={self.folder}"]
        subprocess.run(line, cwd=TOP, check=True, capture_output=True)

    def said(self, *line, **settings):
        """What a command prints."""
        return subprocess.run([*map(str, line)], check=True, env=BARE, encoding="utf-8",
                              stdout=subprocess.PIPE, stderr=subprocess.STDOUT, **settings).stdout

    def assert_searches(self, entry):
        """A client that is in place loads and finds."""
        box = self.write("box", mbox(mail("wort", From="a@x")))
        self.assertRegex(self.said(entry, "load-mbox", self.store, box), r"\Aloaded 1 documents")
        self.assertEqual(self.said(entry, "search", "--count", self.store, "wort"), "1\n")
        self.assertEqual(self.said(entry, "--version"), f"rubewola {VERSION}\n")

    @unittest.skipUnless(shutil.which("dpkg-shlibdeps"), "wants Debian's dpkg-dev")
    def test_a_package_for_debian(self):
        self.make("deb")
        package, = self.folder.glob("*.deb")
        self.assertRegex(package.name, rf"\Arubewola_{re.escape(VERSION)}_\w+\.deb\Z")
        top = self.folder / "root"
        self.said("dpkg-deb", "-x", package, top)
        files = {str(path.relative_to(top)) for path in top.rglob("*") if path.is_file()}
        self.lint(package)
        named = self.said("dpkg-deb", "-f", package, "Package", "Version", "Depends")
        self.assertRegex(named, rf"Version: {re.escape(VERSION)}\nDepends: libc6 .*python3 ")
        self.check_package(top, files)

    def check_package(self, top, files):
        """A package that is unpacked in a folder."""
        self.assertLessEqual({
            "usr/bin/pk_find", "usr/bin/rubewola", "usr/share/man/man1/rubewola.1.gz",
            "usr/share/doc/rubewola/copyright", "usr/share/doc/rubewola/changelog.gz",
            "usr/share/bash-completion/completions/rubewola",
            "usr/share/zsh/vendor-completions/_rubewola",
            "usr/lib/systemd/user/rubewola-load.timer"}, files)
        sources = {f"usr/lib/python3/dist-packages/{path.parent.name}/{path.name}"
                   for path in TOP.glob("clients/python/rubewola*/*.py")}
        self.assertEqual({name for name in files if name.startswith("usr/lib/python3/")}, sources)
        for path in (top / "usr/share/doc/rubewola").rglob("*.md"):
            for target in re.findall(r"\]\(([^()#]+)[^()]*\)", path.read_text("utf-8")):
                self.assertTrue("://" in target or (path.parent / target).exists(), (path, target))
        unit = (top / "usr/lib/systemd/user/rubewola-load.service").read_text("utf-8")
        self.assertIn("\nExecStart=/usr/bin/rubewola load-maildir ", unit)
        self.assert_searches(top / "usr/bin/rubewola")
        modules = top / "usr/lib/python3/dist-packages"
        told = subprocess.run([sys.executable, "-c", "import rubewola; print(rubewola.Store.__name__)"],
                              env={**BARE, "PYTHONPATH": str(modules)}, check=True, text=True,
                              capture_output=True, cwd=top)
        self.assertEqual(told.stdout, "Store\n")

    def lint(self, package):
        """No error of a package, where Debian's judge of them is there."""
        if shutil.which("lintian"):
            told = subprocess.run(["lintian", "--allow-root", package], capture_output=True,
                                  encoding="utf-8", check=False)
            self.assertNotRegex(told.stdout, "(?m)^E:", told.stderr)

    @unittest.skipUnless(shutil.which("dpkg-buildpackage"), "wants Debian's dpkg-dev")
    def test_a_source_package_for_debian(self):
        self.make("source-package")
        described, = self.folder.glob("*.dsc")
        built = self.folder / "built"
        built.mkdir()
        self.said("dpkg-source", "-x", described, built / "tree")
        self.said("dpkg-buildpackage", "-d", "-b", "-us", "-uc", cwd=built / "tree")
        package, = built.glob("rubewola_*.deb")
        self.assertEqual(len([*built.glob("*.changes")]), 1)
        top = self.folder / "root"
        self.said("dpkg-deb", "-x", package, top)
        self.assertTrue((top / "usr/lib/python3/dist-packages/rubewola/store.py").is_file())
        self.assertEqual(self.said(top / "usr/bin/rubewola", "--version"), f"rubewola {VERSION}\n")
        named = self.said("dpkg-parsechangelog", "-S", "Version", cwd=TOP)
        self.assertEqual(named, f"{VERSION}\n")

    def test_a_wheel(self):
        self.make("wheel")
        wheel, = self.folder.glob("*.whl")
        with zipfile.ZipFile(wheel) as archive:
            names = set(archive.namelist())
            archive.extractall(self.folder / "wheel")
        sources = {f"{path.parent.name}/{path.name}" for path in TOP.glob("clients/python/rubewola*/*.py")}
        self.assertEqual({name for name in names if ".dist-info/" not in name}, sources)
        for line in (self.folder / f"wheel/rubewola-{VERSION}.dist-info/RECORD").read_text().splitlines():
            name, told, size = line.split(",")
            data = (self.folder / "wheel" / name).read_bytes()
            if told:
                digest = base64.urlsafe_b64encode(hashlib.sha256(data).digest()).rstrip(b"=").decode()
                self.assertEqual((told, int(size)), (f"sha256={digest}", len(data)))
            self.assertIn(name, names)
        line = [sys.executable, "-m", "rubewola"]
        bare = {**BARE, "PYTHONPATH": str(self.folder / "wheel")}
        said = subprocess.run([*line, "info", "x"], env={**bare, "PATH": "/nowhere"}, check=False,
                              capture_output=True, text=True)
        self.assertIn("there is no program pk_find", said.stderr)
        self.assertEqual(said.returncode, 2)
        said = subprocess.run([*line, "--version"], env=bare, check=True, capture_output=True, text=True)
        self.assertEqual(said.stdout, f"rubewola {VERSION}\n")

    @unittest.skipUnless(importlib.util.find_spec("pip"), "wants Debian's python3-pip")
    def test_pip(self):
        subprocess.run([sys.executable, "-m", "pip", "install", "--quiet", "--no-deps", "--no-index",
                        "--no-compile", "--disable-pip-version-check", "--target",
                        self.folder / "pip", TOP / "clients/python"], check=True, env=BARE,
                       capture_output=True)
        entry = self.folder / "pip/bin/rubewola"
        said = subprocess.run([sys.executable, entry, "--version"], check=True, text=True,
                              capture_output=True, env={**BARE, "PYTHONPATH": str(self.folder / "pip")})
        self.assertEqual(said.stdout, f"rubewola {VERSION}\n")

    @unittest.skipUnless(shutil.which("systemd-analyze"), "wants systemd")
    def test_the_unit_is_shut_in(self):
        text = (TOP / "packages/rubewola-load.service").read_text("utf-8")
        unit = self.write("rubewola-load.service", text.replace("@BIN@", "/usr/bin"))
        rated = subprocess.run(["systemd-analyze", "security", "--offline=yes", "--threshold=20",
                                "--no-pager", unit], check=False, capture_output=True, text=True)
        if "unrecognized option" in rated.stderr:
            self.skipTest("wants systemd 250")
        self.assertEqual(rated.returncode, 0, rated.stdout + rated.stderr)
        self.assertRegex(rated.stdout, r"Overall exposure level for .*: [01]\.\d")

    def test_tarballs(self):
        self.make("dist")
        top, built = f"rubewola-{VERSION}", self.folder / "built"
        names = {}
        for path in self.folder.glob("*.tar.gz"):
            with tarfile.open(path) as archive:
                names[path.name] = set(archive.getnames())
                archive.extractall(built)
        plain = f"{top}.tar.gz"
        other, = set(names) - {plain}
        added = names[other] - names[plain]
        self.assertEqual({name for name in added if name.endswith("/pk_find")},
                         {f"{top}/crates/pk_find/out/pk_find"})
        self.assertLessEqual({f"{top}/Makefile", f"{top}/README.md"}, names[plain])
        # Where the program is built, it is installed without the toolchain.
        self.said("make", "--silent", "install", f"PREFIX={self.folder / 'top'}", cwd=built / top)
        self.assert_searches(self.folder / "top/bin/rubewola")

    def test_scripts(self):
        for path in [*TOP.glob("packages/*.sh"), TOP / "debian/postinst", TOP / "debian/prerm"]:
            self.said("sh", "-n", path)
        if shutil.which("zsh"):
            self.said("zsh", "-n", TOP / "clients/completions/_rubewola")
        self.said("bash", "-n", TOP / "clients/completions/rubewola.bash")


if __name__ == "__main__":
    unittest.main()
