"""Builds the wheel, as pip asks for it, with nothing but Python: the package, and in it the library
that REGNUBAS_LIBRARY names."""
import base64
import hashlib
import os
import pathlib
import sysconfig
import zipfile

NAME, VERSION = "regnubas", "0.1.0"
PLATFORM = sysconfig.get_platform().replace("-", "_").replace(".", "_")
TAG = f"py3-none-{PLATFORM}"
INFO = f"{NAME}-{VERSION}.dist-info"
METADATA = f"""Metadata-Version: 2.1
Name: {NAME}
Version: {VERSION}
Summary: An ordered dictionary that threads share without locks
License: Apache-2.0
License-File: LICENSE
Requires-Python: >=3.9
"""
WHEEL = f"""Wheel-Version: 1.0
Generator: {NAME}
Root-Is-Purelib: false
Tag: {TAG}
"""


def _files():
    """What is in the wheel: names and contents."""
    here = pathlib.Path(__file__).parent
    for path in sorted((here / NAME).iterdir()):
        if path.suffix == ".py" or path.name == "py.typed":
            yield f"{NAME}/{path.name}", path.read_bytes()
    yield f"{NAME}/libregnubas.so.0", pathlib.Path(os.environ["REGNUBAS_LIBRARY"]).read_bytes()
    yield f"{INFO}/LICENSE", (here.parent.parent / "LICENSE").read_bytes()
    yield f"{INFO}/METADATA", METADATA.encode()
    yield f"{INFO}/WHEEL", WHEEL.encode()


def _sum(content):
    digest = hashlib.sha256(content).digest()
    return "sha256=" + base64.urlsafe_b64encode(digest).rstrip(b"=").decode()


def build_wheel(wheel_directory, config_settings=None, metadata_directory=None):
    """The hook of PEP 517. The same files make the same bytes."""
    name = f"{NAME}-{VERSION}-{TAG}.whl"
    record = ""
    with zipfile.ZipFile(pathlib.Path(wheel_directory) / name, "w", zipfile.ZIP_DEFLATED) as wheel:
        for path, content in _files():
            record += f"{path},{_sum(content)},{len(content)}\n"
            wheel.writestr(zipfile.ZipInfo(path), content, zipfile.ZIP_DEFLATED)
        wheel.writestr(zipfile.ZipInfo(f"{INFO}/RECORD"), record + f"{INFO}/RECORD,,\n")
    return name
