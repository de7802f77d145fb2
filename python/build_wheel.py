"""Builds the package as a wheel, with the library in it that `make lib` built, or that MSEED_LIBRARY names: what pip
calls, by PEP 517. It wants nothing but Python, and so no network."""

import base64
import hashlib
import os
import runpy
import sysconfig
import zipfile
from pathlib import Path
from typing import Any, Dict, Optional

HERE = Path(__file__).resolve().parent
LIBRARY = "libmseed_c.so"
BUILT = HERE.parent / "crates" / "mseed_c" / "out" / "lib" / LIBRARY
MODULES = HERE.parent / "tools" / "mseed_tools"
VERSION = runpy.run_path(str(HERE / "mseed" / "_version.py"))["__version__"]
NAME = f"mseed-{VERSION}"
# The library is for one kind of machine, and any Python.
TAG = f"py3-none-{sysconfig.get_platform().replace('-', '_').replace('.', '_')}"
METADATA = f"""\
Metadata-Version: 2.1
Name: mseed
Version: {VERSION}
Summary: miniSEED by a proved reader, auditor and packer
Requires-Python: >=3.9
Provides-Extra: numpy
Requires-Dist: numpy; extra == "numpy"
Description-Content-Type: text/markdown

"""
WHEEL = f"Wheel-Version: 1.0\nGenerator: mseed\nRoot-Is-Purelib: false\nTag: {TAG}\n"


class UnsupportedOperation(Exception):
    """What isn't done."""


def build_wheel(wheel_directory: str, config_settings: Any = None, metadata_directory: Optional[str] = None) -> str:
    """Writes the wheel into a folder; its name."""
    library = Path(os.environ.get("MSEED_LIBRARY") or BUILT)
    if not library.exists():
        raise FileNotFoundError(f"{library}: 'make lib' builds it, and MSEED_LIBRARY names another one")
    files = {f"mseed/{path.name}": path.read_bytes() for path in sorted((HERE / "mseed").iterdir()) if path.is_file()}
    # The modules of the tools, on which mseed.fdsnws stands.
    files.update({f"mseed_tools/{path.name}": path.read_bytes() for path in sorted(MODULES.glob("*.py"))})
    files[f"mseed/{LIBRARY}"] = library.read_bytes()
    files[f"{NAME}.dist-info/METADATA"] = (METADATA + (HERE / "README.md").read_text(encoding="utf-8")).encode()
    files[f"{NAME}.dist-info/WHEEL"] = WHEEL.encode()
    files[f"{NAME}.dist-info/RECORD"] = record_of(files).encode()
    name = f"{NAME}-{TAG}.whl"
    with zipfile.ZipFile(os.path.join(wheel_directory, name), "w", zipfile.ZIP_DEFLATED) as wheel:
        for path, content in files.items():
            wheel.writestr(path, content)
    return name


def record_of(files: Dict[str, bytes]) -> str:
    """The record of a wheel: each file with its digest and its size, and the record itself without."""
    lines = []
    for path, content in files.items():
        digest = base64.urlsafe_b64encode(hashlib.sha256(content).digest()).decode("ascii").rstrip("=")
        lines.append(f"{path},sha256={digest},{len(content)}\n")
    return "".join([*lines, f"{NAME}.dist-info/RECORD,,\n"])


def build_sdist(sdist_directory: str, config_settings: Any = None) -> str:
    """No archive of the package alone is made."""
    raise UnsupportedOperation("the sources of the package belong to those of the library: 'make dist' packs both")
