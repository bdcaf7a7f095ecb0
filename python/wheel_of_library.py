"""Makes the wheel of obl0.py and of the shipped library, dist/libobl0.so, for `pip install ./python`. Nothing is compiled or fetched."""
import base64
import hashlib
import zipfile
from pathlib import Path

HERE = Path(__file__).resolve().parent
TOP = HERE.parent
NAME, VERSION, TAG = "obl0", "0.1.0", "py3-none-linux_x86_64"
METADATA = f"""\
Metadata-Version: 2.1
Name: {NAME}
Version: {VERSION}
Summary: Sequential modules of Oberon-0 as wait-free shared objects, and the check of other objects against them
License: MIT OR Apache-2.0
Requires-Python: >=3.8
"""
WHEEL = f"Wheel-Version: 1.0\nGenerator: {NAME}\nRoot-Is-Purelib: false\nTag: {TAG}\n"


def contents():
    """The files of the wheel, by their names there."""
    about = f"{NAME}-{VERSION}.dist-info"
    files = {"obl0.py": (HERE / "obl0.py").read_bytes(), "libobl0.so": (TOP / "dist/libobl0.so").read_bytes()}
    for paper in ("LICENSE-MIT", "LICENSE-APACHE", "dist/NOTICES"):
        files[f"{about}/{Path(paper).name}"] = (TOP / paper).read_bytes()
    files[f"{about}/METADATA"] = METADATA.encode()
    files[f"{about}/WHEEL"] = WHEEL.encode()
    sums = {name: base64.urlsafe_b64encode(hashlib.sha256(text).digest()).rstrip(b"=").decode() for name, text in files.items()}
    lines = [f"{name},sha256={sums[name]},{len(text)}\n" for name, text in files.items()]
    files[f"{about}/RECORD"] = "".join([*lines, f"{about}/RECORD,,\n"]).encode()
    return files


def build_wheel(wheel_directory, config_settings=None, metadata_directory=None):
    """Puts the wheel into a folder, and gives its name."""
    name = f"{NAME}-{VERSION}-{TAG}.whl"
    with zipfile.ZipFile(Path(wheel_directory, name), "w", zipfile.ZIP_DEFLATED) as wheel:
        for file, text in contents().items():
            wheel.writestr(file, text)
    return name
