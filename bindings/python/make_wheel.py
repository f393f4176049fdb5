"""Packs wulameron.py as a wheel for pip, which calls `build_wheel` for `pip install bindings/python`.

The crate for Rust has the version, the description and the licence of all bindings, and they are taken from there.
"""
from __future__ import annotations

import base64
import hashlib
import pathlib
import re
import zipfile

HERE = pathlib.Path(__file__).resolve().parent
MODULE = "wulameron.py"


class UnsupportedOperation(Exception):
    """What a builder raises for a kind of archive that it doesn't make."""


def build_wheel(wheel_directory: str, config_settings: object = None, metadata_directory: object = None) -> str:
    """Writes the wheel into the folder, and gives its name."""
    crate = (HERE.parent / "rust/Cargo.toml").read_text(encoding="utf-8")
    facts = dict(re.findall(r'^(version|description|license) = "(.*)"$', crate, re.MULTILINE))
    name = f"wulameron-{facts['version']}"
    metadata = ["Metadata-Version: 2.1", "Name: wulameron", "Version: {version}", "Summary: {description}"]
    metadata += ["License: {license}", "Requires-Python: >=3.8"]
    tags = ["Wheel-Version: 1.0", "Generator: make_wheel", "Root-Is-Purelib: true", "Tag: py3-none-any"]
    files = {
        MODULE: (HERE / MODULE).read_bytes(),
        f"{name}.dist-info/METADATA": "".join(f"{line}\n" for line in metadata).format(**facts).encode(),
        f"{name}.dist-info/WHEEL": "".join(f"{line}\n" for line in tags).encode(),
    }
    record = f"{name}.dist-info/RECORD"
    rows = [f"{path},sha256={_digest(content)},{len(content)}\n" for path, content in files.items()]
    files[record] = "".join([*rows, f"{record},,\n"]).encode()
    with zipfile.ZipFile(pathlib.Path(wheel_directory) / f"{name}-py3-none-any.whl", "w") as wheel:
        for path, content in files.items():
            wheel.writestr(path, content)
    return f"{name}-py3-none-any.whl"


def build_sdist(sdist_directory: str, config_settings: object = None) -> str:
    """Makes no source archive, since what the crate for Rust has wouldn't be in it."""
    raise UnsupportedOperation("there is no source archive of the module alone; take the repository")


def _digest(content: bytes) -> str:
    return base64.urlsafe_b64encode(hashlib.sha256(content).digest()).rstrip(b"=").decode()
