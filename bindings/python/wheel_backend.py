"""The build backend of pyproject.toml (PEP 517): packs the package as a wheel, with the standard library alone."""

from __future__ import annotations

import base64
import hashlib
import zipfile
from pathlib import Path
from typing import Any, Dict, Iterator, List, Optional, Tuple

FOLDER = Path(__file__).resolve().parent
PACKAGE = "tarnoklej"
SUMMARY = "RTCM messages 1021 to 1027: reading, writing, grid shifts, datum steps and tables over the proved library"
# The earliest time that a zip file can say, so that one package is always the same wheel.
_TIME = (1980, 1, 1, 0, 0, 0)


def version() -> str:
    """The version of the repository that this folder stands in."""
    return (FOLDER.parents[1] / "VERSION").read_text().strip()


def _metadata() -> str:
    readme = (FOLDER / "README.md").read_text(encoding="utf-8")
    return (
        f"Metadata-Version: 2.1\nName: {PACKAGE}\nVersion: {version()}\nSummary: {SUMMARY}\n"
        f"Requires-Python: >=3.9\nDescription-Content-Type: text/markdown\n\n{readme}"
    )


def _files() -> Iterator[Tuple[str, bytes]]:
    """The files of the wheel but for the list of them."""
    for path in sorted((FOLDER / PACKAGE).iterdir()):
        if path.suffix == ".py" or path.name == "py.typed":
            yield f"{PACKAGE}/{path.name}", path.read_bytes()
    about = f"{PACKAGE}-{version()}.dist-info"
    yield f"{about}/METADATA", _metadata().encode()
    yield f"{about}/WHEEL", b"Wheel-Version: 1.0\nGenerator: tarnoklej\nRoot-Is-Purelib: true\nTag: py3-none-any\n"


def _record(name: str, data: bytes) -> str:
    digest = base64.urlsafe_b64encode(hashlib.sha256(data).digest()).rstrip(b"=").decode()
    return f"{name},sha256={digest},{len(data)}\n"


def build_wheel(
    wheel_directory: str, config_settings: Optional[Dict[str, Any]] = None, metadata_directory: Optional[str] = None
) -> str:
    """Writes the wheel into a folder, and gives its file's name."""
    name = f"{PACKAGE}-{version()}-py3-none-any.whl"
    listed = f"{PACKAGE}-{version()}.dist-info/RECORD"
    files = list(_files())
    files.append((listed, ("".join(_record(*file) for file in files) + f"{listed},,\n").encode()))
    with zipfile.ZipFile(Path(wheel_directory, name), "w", zipfile.ZIP_DEFLATED) as wheel:
        for path, data in files:
            wheel.writestr(zipfile.ZipInfo(path, _TIME), data)
    return name


def get_requires_for_build_wheel(config_settings: Optional[Dict[str, Any]] = None) -> List[str]:
    """The build needs no other package."""
    return []


def build_sdist(sdist_directory: str, config_settings: Optional[Dict[str, Any]] = None) -> str:
    """A source archive is not made: the sources are the repository."""
    raise RuntimeError("tarnoklej is built from its repository, without a source archive")
