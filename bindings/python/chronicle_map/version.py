"""The version of the package."""
from importlib import metadata

from .library import repository

__all__ = ["version"]


def version() -> str:
    """By the repository's file VERSION where the package is used from its place there, else by what pip installed."""
    root = repository()
    if root is not None and (root / "VERSION").is_file():
        return (root / "VERSION").read_text(encoding="ascii").strip()
    try:
        return metadata.version("chronicle_map")
    except metadata.PackageNotFoundError:  # a folder that was copied by hand
        return "0+unknown"
