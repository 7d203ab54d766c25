"""Makes the wheel that `pip install ./hosts/python` installs.

It has the package rostulanda: the module as its __init__.py, py.typed, and the
shared library that RL_SHARED_LIBRARY names or that ./build library made. The
standard library does for it, so that nothing is downloaded.
"""

import base64
import hashlib
import os
import zipfile
from pathlib import Path
from typing import Any, Dict, Optional

HERE = Path(__file__).resolve().parent
REPOSITORY = HERE.parent.parent

#: Linux on x86-64, any Python 3.
TAG = "py3-none-linux_x86_64"


def _project() -> Dict[str, str]:
    """What pyproject.toml says of the project: lines of a name and a text."""
    text = (HERE / "pyproject.toml").read_text("utf-8").split("[project]")[1]
    lines = (line.split(" = ", 1) for line in text.splitlines() if " = " in line)
    return {name: value.strip('"') for name, value in lines}


def _library() -> bytes:
    named = os.environ.get("RL_SHARED_LIBRARY")
    path = Path(named) if named else REPOSITORY / "target" / "staticlib" / "librostulanda.so"
    if not path.exists():
        raise SystemExit(f"no shared library: {path} is not there; ./build library makes it")
    return path.read_bytes()


def _files() -> Dict[str, bytes]:
    """Each file of the wheel but the list of them."""
    project = _project()
    info = f"{project['name']}-{project['version']}.dist-info"
    metadata = (
        "Metadata-Version: 2.1\n"
        f"Name: {project['name']}\n"
        f"Version: {project['version']}\n"
        f"Summary: {project['description']}\n"
        f"Requires-Python: {project['requires-python']}\n"
    )
    wheel = f"Wheel-Version: 1.0\nGenerator: rostulanda\nRoot-Is-Purelib: false\nTag: {TAG}\n"
    return {
        "rostulanda/__init__.py": (HERE / "rostulanda.py").read_bytes(),
        "rostulanda/py.typed": b"",
        "rostulanda/librostulanda.so": _library(),
        f"{info}/METADATA": metadata.encode(),
        f"{info}/WHEEL": wheel.encode(),
    }


def _record(files: Dict[str, bytes], name: str) -> bytes:
    """The list of all files, this one included."""
    lines = []
    for path, held in files.items():
        digest = base64.urlsafe_b64encode(hashlib.sha256(held).digest()).rstrip(b"=").decode()
        lines.append(f"{path},sha256={digest},{len(held)}\n")
    return "".join([*lines, f"{name},,\n"]).encode()


def build_wheel(
    wheel_directory: str,
    config_settings: Optional[Dict[str, Any]] = None,
    metadata_directory: Optional[str] = None,
) -> str:
    """Writes the wheel, and gives its name."""
    project = _project()
    distribution = f"{project['name']}-{project['version']}"
    files = _files()
    record = f"{distribution}.dist-info/RECORD"
    files[record] = _record(files, record)
    name = f"{distribution}-{TAG}.whl"
    with zipfile.ZipFile(Path(wheel_directory) / name, "w", zipfile.ZIP_DEFLATED) as wheel:
        for path, held in files.items():
            wheel.writestr(path, held)
    return name


def build_sdist(sdist_directory: str, config_settings: Optional[Dict[str, Any]] = None) -> str:
    raise SystemExit("the sources are the repository's: only a wheel is made")
