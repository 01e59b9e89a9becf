"""Makes a wheel of the client, without the program, also where `pip` asks for one (PEP 517).

    wheels.py FOLDER

It wants nothing but Python: a wheel is a zip archive with three texts beside the packages.
"""

import base64
import hashlib
import os
import pathlib
import re
import sys
import tarfile
import zipfile

HERE = pathlib.Path(__file__).resolve().parent
PACKAGES = ("rubewola", "rubewola_shards")
NAME = "rubewola"
VERSION = re.search(r'(?m)^VERSION = "(.+)"', (HERE / "rubewola/commands.py").read_text("utf-8"))[1]
TAG = "py3-none-any"
METADATA = f"""Metadata-Version: 2.1
Name: {NAME}
Version: {VERSION}
Summary: Archives of mails and logs, and Boolean search in them: the client of pk_find
Requires-Python: >=3.9
Provides-Extra: shards
Requires-Dist: distributed; extra == "shards"

The client of Rubewola, without the program: `pk_find` is to be in a folder of PATH, or named by the
variable RUBEWOLA_PROGRAM.
"""
WHEEL = f"Wheel-Version: 1.0\nGenerator: wheels.py\nRoot-Is-Purelib: true\nTag: {TAG}\n"
ENTRIES = """[console_scripts]
rubewola = rubewola.__main__:run
rubewola-shards = rubewola_shards.__main__:main
"""
MOMENT = (1980, 1, 1, 0, 0, 0)  # Of all files, so that the same sources make the same bytes.


def files():
    """What a wheel holds, by names."""
    found = {path.relative_to(HERE).as_posix(): path.read_bytes()
             for package in PACKAGES for path in sorted((HERE / package).glob("*.py"))}
    info = f"{NAME}-{VERSION}.dist-info"
    texts = {"METADATA": METADATA, "WHEEL": WHEEL, "entry_points.txt": ENTRIES}
    return {**found, **{f"{info}/{name}": text.encode() for name, text in texts.items()}}


def record(held):
    """The sums of all files, in the last one."""
    lines = []
    for name, data in held.items():
        told = base64.urlsafe_b64encode(hashlib.sha256(data).digest()).rstrip(b"=").decode()
        lines.append(f"{name},sha256={told},{len(data)}\n")
    name = f"{NAME}-{VERSION}.dist-info/RECORD"
    return name, "".join([*lines, f"{name},,\n"]).encode()


def build_wheel(folder, config_settings=None, metadata_directory=None):
    """Makes the wheel in a folder, and gives its name."""
    del config_settings, metadata_directory
    name, held = f"{NAME}-{VERSION}-{TAG}.whl", files()
    with zipfile.ZipFile(os.path.join(folder, name), "w", zipfile.ZIP_DEFLATED) as wheel:
        for path, data in [*held.items(), record(held)]:
            told = zipfile.ZipInfo(path, MOMENT)
            told.external_attr, told.compress_type = 0o644 << 16, zipfile.ZIP_DEFLATED
            wheel.writestr(told, data)
    return name


def build_sdist(folder, config_settings=None):
    """Makes an archive of the sources in a folder, and gives its name."""
    del config_settings
    top = f"{NAME}-{VERSION}"
    with tarfile.open(os.path.join(folder, f"{top}.tar.gz"), "w:gz") as archive:
        for path in ("pyproject.toml", "wheels.py", *PACKAGES):
            archive.add(HERE / path, f"{top}/{path}",
                        filter=lambda one: None if "__pycache__" in one.name else one)
    return f"{top}.tar.gz"


if __name__ == "__main__":
    print(build_wheel(sys.argv[1]))
