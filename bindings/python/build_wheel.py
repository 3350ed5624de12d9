"""Builds the wheel: a zip of the package with what says who it is. So `pip install .` needs nothing but this folder."""

import base64
import hashlib
import os
import zipfile

NAME, VERSION = "lrkit", "0.1.0"
HERE = os.path.dirname(os.path.abspath(__file__))
METADATA = f"Metadata-Version: 2.1\nName: {NAME}\nVersion: {VERSION}\nSummary: LR parsers from Yacc grammars, with a checked table\nRequires-Python: >=3.8\nLicense: MIT OR Apache-2.0\n"
WHEEL = "Wheel-Version: 1.0\nGenerator: build_wheel\nRoot-Is-Purelib: false\nTag: py3-none-any\n"


def files():
    """Yields the names and the bytes of what the wheel has."""
    for name in sorted(os.listdir(f"{HERE}/{NAME}")):
        if name.endswith((".py", ".so", ".typed")):
            with open(f"{HERE}/{NAME}/{name}", "rb") as it:
                yield f"{NAME}/{name}", it.read()
    yield f"{NAME}-{VERSION}.dist-info/METADATA", METADATA.encode()
    yield f"{NAME}-{VERSION}.dist-info/WHEEL", WHEEL.encode()


def build_wheel(wheel_directory, config_settings=None, metadata_directory=None):
    """Writes the wheel, and returns its name."""
    name, rows = f"{NAME}-{VERSION}-py3-none-any.whl", []
    with zipfile.ZipFile(f"{wheel_directory}/{name}", "w", zipfile.ZIP_DEFLATED) as out:
        for path, data in files():
            out.writestr(path, data)
            digest = base64.urlsafe_b64encode(hashlib.sha256(data).digest()).rstrip(b"=").decode()
            rows.append(f"{path},sha256={digest},{len(data)}")
        record = f"{NAME}-{VERSION}.dist-info/RECORD"
        out.writestr(record, "\n".join([*rows, f"{record},,", ""]))
    return name
