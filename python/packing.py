"""Makes the wheel of this folder for `pip install ./python`, with the standard library alone, so without network.

Beside the modules the wheel holds the page of the rules and the style of report pages; and where `c/build` has built the
library of these sources, that library, so that the wheel is one for such machines. The version is that of the file
VERSION at the top of the repository, where there is one.
"""

from __future__ import annotations

import base64
import hashlib
import sys
import zipfile
from pathlib import Path
from typing import Dict, List, Optional

HERE = Path(__file__).resolve().parent
sys.path.insert(0, str(HERE))

from virage.engines import built_library  # noqa: E402
from virage.library import SONAME  # noqa: E402


def version() -> str:
    file = HERE.parent / "VERSION"
    return file.read_text(encoding="utf-8").strip() if file.is_file() else "0"


def tag() -> str:
    """The machines that the wheel is for."""
    return "py3-none-any" if built_library(HERE.parent) is None else "py3-none-linux_x86_64"


def metadata() -> Dict[str, bytes]:
    """The files that say what the wheel is, by their names in it."""
    folder = f"virage-{version()}.dist-info"
    core = f"Metadata-Version: 2.1\nName: virage\nVersion: {version()}\nRequires-Python: >=3.9\n"
    is_pure = "true" if tag().endswith("any") else "false"
    tags = f"Wheel-Version: 1.0\nGenerator: virage\nRoot-Is-Purelib: {is_pure}\nTag: {tag()}\n"
    license_text = (HERE.parent / "LICENSE").read_bytes()
    return {f"{folder}/METADATA": core.encode(), f"{folder}/WHEEL": tags.encode(), f"{folder}/LICENSE": license_text}


def modules() -> Dict[str, bytes]:
    """The files of the package, by their names in the wheel."""
    files = sorted(path for path in (HERE / "virage").iterdir() if path.is_file())
    page = HERE.parent / "docs" / "RULES.md"
    packed = {f"virage/{path.name}": path.read_bytes() for path in [*files, page]}
    library = built_library(HERE.parent)
    if library is not None:
        packed[f"virage/{SONAME}"] = library.read_bytes()
    return packed


def build_wheel(
    wheel_directory: str,
    config_settings: Optional[Dict[str, str]] = None,
    metadata_directory: Optional[str] = None,
) -> str:
    """What pip calls: writes the wheel into the folder, and gives its name."""
    name = f"virage-{version()}-{tag()}.whl"
    files = {**modules(), **metadata()}
    record = f"virage-{version()}.dist-info/RECORD"
    lines: List[str] = []
    with zipfile.ZipFile(Path(wheel_directory, name), "w", zipfile.ZIP_DEFLATED) as wheel:
        for path, content in files.items():
            wheel.writestr(zipfile.ZipInfo(path), content)
            sum_of = base64.urlsafe_b64encode(hashlib.sha256(content).digest()).rstrip(b"=").decode()
            lines.append(f"{path},sha256={sum_of},{len(content)}\n")
        wheel.writestr(zipfile.ZipInfo(record), "".join(lines) + f"{record},,\n")
    return name
