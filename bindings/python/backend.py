"""Builds the wheel that pip installs: the package, the library, the command and the man page.

Standard library only (PEP 517), so that nothing is fetched.
"""

import base64
import hashlib
import os
import sysconfig
import zipfile

from kutimuq import __version__, library

FOLDER = os.path.dirname(os.path.abspath(__file__))
LICENSE = os.path.join(library.REPOSITORY, "LICENSE")
NAME = f"kutimuq-{__version__}"
TAG = "py3-none-" + sysconfig.get_platform().replace("-", "_").replace(".", "_")
SCRIPT = """#!python
import kutimuq.__main__
"""
METADATA = f"""Metadata-Version: 2.1
Name: kutimuq
Version: {__version__}
Summary: Reads, checks and writes Atari ST pictures by way of a proved library
Requires-Python: >=3.9
Description-Content-Type: text/markdown

"""
WHEEL = f"""Wheel-Version: 1.0
Generator: kutimuq
Root-Is-Purelib: false
Tag: {TAG}
"""


def build_wheel(wheel_directory, config_settings=None, metadata_directory=None):
    """PEP 517: writes the wheel and gives its name."""
    name = f"{NAME}-{TAG}.whl"
    with zipfile.ZipFile(os.path.join(wheel_directory, name), "w", zipfile.ZIP_DEFLATED) as wheel:
        records = []
        for path, data in contents().items():
            entry = zipfile.ZipInfo(path)
            entry.external_attr = (0o100755 if "/scripts/" in path else 0o100644) << 16
            entry.compress_type = zipfile.ZIP_DEFLATED
            wheel.writestr(entry, data)
            digest = base64.urlsafe_b64encode(hashlib.sha256(data).digest()).rstrip(b"=").decode("ascii")
            records.append(f"{path},sha256={digest},{len(data)}\n")
        record = f"{NAME}.dist-info/RECORD"
        wheel.writestr(record, "".join(records) + f"{record},,\n")
    return name


def contents():
    """The wheel's files, by path."""
    package = os.path.join(FOLDER, "kutimuq")
    names = [name for name in sorted(os.listdir(package)) if name.endswith((".py", ".pyi", ".html", ".typed"))]
    files = {f"kutimuq/{name}": content(package, name) for name in names}
    files[f"kutimuq/{library.SHARED_OBJECT}"] = content(library.find())
    files[f"{NAME}.data/scripts/kutimuq"] = SCRIPT.encode("ascii")
    files[f"{NAME}.data/data/share/man/man1/kutimuq.1"] = content(FOLDER, "man", "kutimuq.1")
    files[f"{NAME}.dist-info/METADATA"] = METADATA.encode("ascii") + content(FOLDER, "README.md")
    files[f"{NAME}.dist-info/WHEEL"] = WHEEL.encode("ascii")
    if os.path.isfile(LICENSE):
        files[f"{NAME}.dist-info/LICENSE"] = content(LICENSE)
    return files


def content(*path):
    with open(os.path.join(*path), "rb") as file:
        return file.read()


class UnsupportedOperation(Exception):
    """PEP 517's name for what a backend does not do."""


def build_sdist(sdist_directory, config_settings=None):
    """The library is built from the whole repository, so that a source archive of this folder would not do."""
    raise UnsupportedOperation("install from the repository")
