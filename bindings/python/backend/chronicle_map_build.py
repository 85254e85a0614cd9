"""Makes the package's wheel with the standard library alone (PEP 517 and PEP 660).

The version is in the file VERSION of this folder, and the repository's VERSION is a link to it: pip before 21.3 builds
in a copy of this folder alone.
"""
import base64
import hashlib
import re
import zipfile
from pathlib import Path
from typing import Any, Dict, NoReturn, Optional

FOLDER = Path(__file__).resolve().parent.parent
VERSION = FOLDER / "VERSION"
WHEEL = b"Wheel-Version: 1.0\nGenerator: chronicle_map_build\nRoot-Is-Purelib: true\nTag: py3-none-any\n"
Config = Optional[Dict[str, Any]]
Name = Optional[str]


class UnsupportedOperation(Exception):
    """What a backend raises for a part of PEP 517 that it does not offer."""


def build_wheel(wheel_directory: str, config_settings: Config = None, metadata_directory: Name = None) -> str:
    """Writes the wheel to the directory and gives its file name."""
    sources = [path for path in sorted((FOLDER / "chronicle_map").iterdir()) if path.suffix in (".py", ".typed")]
    return _write(wheel_directory, {f"chronicle_map/{path.name}": path.read_bytes() for path in sources})


def build_editable(wheel_directory: str, config_settings: Config = None, metadata_directory: Name = None) -> str:
    """The same for a wheel that only names this folder (`pip install -e`)."""
    return _write(wheel_directory, {"chronicle_map.pth": f"{FOLDER}\n".encode()})


def build_sdist(sdist_directory: str, config_settings: Config = None) -> NoReturn:
    """There is none: the library belongs to the repository."""
    raise UnsupportedOperation("there is no source archive of this folder alone; take the repository")


def _write(directory: str, files: Dict[str, bytes]) -> str:
    """Writes a wheel of these files and its own description."""
    version = _version()
    info = f"chronicle_map-{version}.dist-info"
    files[f"{info}/METADATA"] = _metadata(version).encode()
    files[f"{info}/WHEEL"] = WHEEL
    files[f"{info}/RECORD"] = _record(files, f"{info}/RECORD").encode()
    name = f"chronicle_map-{version}-py3-none-any.whl"
    with zipfile.ZipFile(Path(directory) / name, "w", zipfile.ZIP_DEFLATED) as wheel:
        for path, content in files.items():
            wheel.writestr(_member(path), content, zipfile.ZIP_DEFLATED)
    return name


def _member(path: str) -> zipfile.ZipInfo:
    """A file for all to read, with a fixed time, so that the same sources give the same wheel."""
    member = zipfile.ZipInfo(path, (1980, 1, 1, 0, 0, 0))
    member.external_attr = 0o644 << 16
    return member


def _version() -> str:
    return VERSION.read_text(encoding="ascii").strip()


def _metadata(version: str) -> str:
    """The core metadata, by the lines `name = "text"` of pyproject.toml's table [project]."""
    text = (FOLDER / "pyproject.toml").read_text(encoding="utf-8")
    table = text.split("\n[project]\n", 1)[1].split("\n[", 1)[0]
    project = dict(re.findall(r'^([a-z-]+) = "(.*)"$', table, re.MULTILINE))
    lines = [
        "Metadata-Version: 2.1",
        f"Name: {project['name']}",
        f"Version: {version}",
        f"Summary: {project['description']}",
        f"Requires-Python: {project['requires-python']}",
        "Description-Content-Type: text/markdown",
        "",
        (FOLDER / project["readme"]).read_text(encoding="utf-8"),
    ]
    return "\n".join(lines)


def _record(files: Dict[str, bytes], itself: str) -> str:
    """The list of the wheel's files, each with its hash and length."""
    lines = [f"{path},sha256={_digest(content)},{len(content)}\n" for path, content in files.items()]
    return "".join(lines) + f"{itself},,\n"


def _digest(content: bytes) -> str:
    return base64.urlsafe_b64encode(hashlib.sha256(content).digest()).decode("ascii").rstrip("=")
