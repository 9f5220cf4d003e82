"""Builds the wheel that `pip install ./bindings/python` installs: the package `fantailclock`, which is fantailclock.py, its
mark for type checkers, the shared object and, where Python's headers are at hand, the extension module. It is pyproject's
builder (PEP 517) and requires nothing but Python, a C compiler and the archive; FANTAILCLOCK_LIB names another folder of the
archive, as for `build`, which makes the objects."""

import base64
import hashlib
import os
import pathlib
import re
import subprocess
import sys
import sysconfig
import tempfile
import zipfile

HERE = pathlib.Path(__file__).resolve().parent
NAME = "fantailclock"
VERSION = re.search(r'^version = "(.+)"$', (HERE / "pyproject.toml").read_text(), re.MULTILINE)[1]
METADATA = f"Metadata-Version: 2.1\nName: {NAME}\nVersion: {VERSION}\nRequires-Python: >=3.9\n"
ABOUT = f"{NAME}-{VERSION}.dist-info"
TERMS = ["LICENSE", "NOTICE"]  # which go with every copy


class UnsupportedOperation(Exception):
    """What the builder does not do."""


def tag(objects):
    """The interpreters that the objects serve: by the extension's name, or any where there is none."""
    platform = sysconfig.get_platform().replace("-", "_").replace(".", "_")
    version = f"cp{sys.version_info[0]}{sys.version_info[1]}"
    extensions = [each.name for each in objects if each.name.startswith("_")]
    if not extensions:
        return f"py3-none-{platform}"
    return f"cp311-abi3-{platform}" if extensions[0].endswith(".abi3.so") else f"{version}-{version}-{platform}"


def made(folder):
    """The objects that `build` makes."""
    environment = {**os.environ, "FANTAILCLOCK_MADE": folder, "PYTHON": sys.executable}
    subprocess.run(["sh", str(HERE / "build")], env=environment, check=True)
    return sorted(pathlib.Path(folder).glob("*.so"))


def record(files):
    """A line for each file: its name, hash and length."""
    def line(name, data):
        digest = base64.urlsafe_b64encode(hashlib.sha256(data).digest()).rstrip(b"=").decode()
        return f"{name},sha256={digest},{len(data)}\n"

    return "".join(line(name, data) for name, data in files.items()) + f"{ABOUT}/RECORD,,\n"


def build_wheel(wheel_directory, config_settings=None, metadata_directory=None):
    """Writes the wheel to a folder; its name."""
    with tempfile.TemporaryDirectory() as folder:
        objects = made(folder)
        wheel = f"Wheel-Version: 1.0\nGenerator: {NAME}\nRoot-Is-Purelib: false\nTag: {tag(objects)}\n"
        files = {f"{NAME}/__init__.py": (HERE / "fantailclock.py").read_bytes(), f"{NAME}/py.typed": b""}
        files.update({f"{NAME}/{each.name}": each.read_bytes() for each in objects})
        files.update({f"{ABOUT}/METADATA": METADATA.encode(), f"{ABOUT}/WHEEL": wheel.encode()})
        files.update({f"{ABOUT}/{each}": (HERE.parents[1] / each).read_bytes() for each in TERMS})
        files[f"{ABOUT}/RECORD"] = record(files).encode()
    name = f"{NAME}-{VERSION}-{tag(objects)}.whl"
    with zipfile.ZipFile(pathlib.Path(wheel_directory) / name, "w", zipfile.ZIP_DEFLATED) as archive:
        for each, data in files.items():
            archive.writestr(each, data)
    return name


def build_sdist(sdist_directory, config_settings=None):
    """There is none: the archive is not built from Python's sources alone."""
    raise UnsupportedOperation("fantailclock is installed from a checkout that has the archive")
