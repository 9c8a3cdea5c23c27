"""Builds the wheel, with nothing but cc: a shared object linked from libaamediate.a lies beside the module in it.

The archive lies in the folder AAMEDIATE_LIB, or where the linker looks anyway.
"""

import base64
import hashlib
import os
import subprocess
import sysconfig
import tempfile
import zipfile

NAME, VERSION = "aamediate", "1.0.0"
TAG = f"py3-none-{sysconfig.get_platform().replace('-', '_').replace('.', '_')}"
INFO = f"{NAME}-{VERSION}.dist-info"
METADATA = f"Metadata-Version: 2.1\nName: {NAME}\nVersion: {VERSION}\nRequires-Python: >=3.9\n"
WHEEL = f"Wheel-Version: 1.0\nGenerator: {NAME}\nRoot-Is-Purelib: false\nTag: {TAG}\n"


def read(path):
    with open(path, "rb") as file:
        return file.read()


def linked():
    """The shared object's bytes."""
    folder = os.environ.get("AAMEDIATE_LIB")
    search = [f"-L{folder}"] if folder else []
    with tempfile.TemporaryDirectory() as room:
        made = os.path.join(room, "libaamediate.so")
        words = [os.environ.get("CC", "cc"), "-shared", "-o", made, *search, "-Wl,--whole-archive", "-l:libaamediate.a", "-Wl,--no-whole-archive"]
        subprocess.run(words, check=True)
        return read(made)


def row(path, text):
    digest = base64.urlsafe_b64encode(hashlib.sha256(text).digest()).rstrip(b"=").decode()
    return f"{path},sha256={digest},{len(text)}\n"


def build_wheel(wheel_directory, config_settings=None, metadata_directory=None):
    files = {f"{NAME}/{it}": read(f"src/{NAME}/{it}") for it in os.listdir(f"src/{NAME}") if it.endswith(".py")}
    files |= {f"{NAME}/libaamediate.so": linked(), f"{INFO}/METADATA": METADATA.encode(), f"{INFO}/WHEEL": WHEEL.encode()}
    name = f"{NAME}-{VERSION}-{TAG}.whl"
    with zipfile.ZipFile(os.path.join(wheel_directory, name), "w", zipfile.ZIP_DEFLATED) as wheel:
        for path, text in files.items():
            wheel.writestr(path, text)
        wheel.writestr(f"{INFO}/RECORD", "".join(row(*it) for it in files.items()) + f"{INFO}/RECORD,,\n")
    return name
