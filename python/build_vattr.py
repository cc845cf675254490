"""Builds the package with the library inside: what pip asks of a build backend (PEP 517), over dist/ and the standard library alone.

In a checkout the texts of the library are in ../dist; a source archive has them in dist/. A C compiler, binutils, awk, gzip and make are
needed.
"""
import base64
import hashlib
import io
import os
import re
import subprocess
import tarfile
import tempfile
import zipfile

HERE = os.path.dirname(os.path.abspath(__file__))
TOP = HERE if os.path.isdir(os.path.join(HERE, "dist")) else os.path.dirname(HERE)
TAG = "py3-none-linux_x86_64"
# What make needs of dist/ to make the library.
TEXTS = ["dist/Makefile", "dist/attr_c.s.gz", "dist/frames", "dist/runtime.c", "include/attr.h"]
# One time for all files, so that one text gives one wheel.
TIME = (2026, 1, 1, 0, 0, 0)


def read(path):
    with open(path, "rb") as file:
        return file.read()


def version():
    number = int(re.search(rb"#define ATTR_VERSION (\d+)", read(os.path.join(TOP, "include", "attr.h")))[1])
    return f"{number // 1000000}.{number // 1000 % 1000}.{number % 1000}"


def modules():
    folder = os.path.join(HERE, "vattr")
    return sorted(it for it in os.listdir(folder) if it.endswith((".py", ".typed")))


def metadata():
    project = read(os.path.join(HERE, "pyproject.toml")).decode()
    value = lambda name: re.search(rf'(?m)^{name} = "(.*)"$', project)[1]
    head = ["Metadata-Version: 2.1", f"Name: {value('name')}", f"Version: {version()}", f"Summary: {value('description')}",
            f"Requires-Python: {value('requires-python')}", "Description-Content-Type: text/markdown", ""]
    return "\n".join(head).encode() + b"\n" + read(os.path.join(HERE, "README.md"))


def library():
    with tempfile.TemporaryDirectory() as room:
        make = ["make", "-s", "-C", os.path.join(TOP, "dist"), f"OUT={room}", f"{room}/libvattr.so"]
        subprocess.run(make, check=True, stdout=subprocess.DEVNULL)
        return read(os.path.join(room, "libvattr.so"))


def get_requires_for_build_wheel(config_settings=None):
    return []


def get_requires_for_build_sdist(config_settings=None):
    return []


def build_wheel(wheel_directory, config_settings=None, metadata_directory=None):
    info = f"vattr-{version()}.dist-info"
    files = [(f"vattr/{name}", read(os.path.join(HERE, "vattr", name))) for name in modules()]
    files.append(("vattr/libvattr.so", library()))
    files.append((f"{info}/METADATA", metadata()))
    files.append((f"{info}/WHEEL", f"Wheel-Version: 1.0\nGenerator: build_vattr\nRoot-Is-Purelib: false\nTag: {TAG}\n".encode()))
    sum_of = lambda data: base64.urlsafe_b64encode(hashlib.sha256(data).digest()).rstrip(b"=").decode()
    sums = [f"{name},sha256={sum_of(data)},{len(data)}" for name, data in files]
    files.append((f"{info}/RECORD", "\n".join([*sums, f"{info}/RECORD,,", ""]).encode()))
    name = f"vattr-{version()}-{TAG}.whl"
    with zipfile.ZipFile(os.path.join(wheel_directory, name), "w", zipfile.ZIP_DEFLATED) as wheel:
        for path, data in files:
            entry = zipfile.ZipInfo(path, TIME)
            entry.compress_type = zipfile.ZIP_DEFLATED
            entry.external_attr = (0o755 if path.endswith(".so") else 0o644) << 16
            wheel.writestr(entry, data)
    return name


def build_sdist(sdist_directory, config_settings=None):
    base = f"vattr-{version()}"
    files = [(name, read(os.path.join(HERE, name))) for name in ("pyproject.toml", "build_vattr.py", "README.md")]
    files += [(f"vattr/{name}", read(os.path.join(HERE, "vattr", name))) for name in modules()]
    tests = os.path.join(HERE, "tests")
    files += [(f"tests/{name}", read(os.path.join(tests, name))) for name in sorted(os.listdir(tests)) if name.endswith(".py")]
    files += [(name, read(os.path.join(TOP, name))) for name in TEXTS]
    files.append(("PKG-INFO", metadata()))
    with tarfile.open(os.path.join(sdist_directory, f"{base}.tar.gz"), "w:gz", format=tarfile.PAX_FORMAT) as archive:
        for path, data in files:
            entry = tarfile.TarInfo(f"{base}/{path}")
            entry.size, entry.mode = len(data), 0o755 if path == "dist/frames" else 0o644
            archive.addfile(entry, io.BytesIO(data))
    return f"{base}.tar.gz"
