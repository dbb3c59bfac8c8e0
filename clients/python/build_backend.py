"""Builds the wheel and the source archive of a package with the standard library only (PEP 517), so that pip needs no network.

The package is that of the folder in which it runs: its name is that of the project with `_` for `-`.
"""

from __future__ import annotations

import base64
import hashlib
import re
import tarfile
import zipfile
from pathlib import Path

HERE = Path.cwd()
SETTING = re.compile(r'^([a-z_-]+) = "(.*)"$', re.MULTILINE)
TABLE = (HERE / "pyproject.toml").read_text()
PROJECT: dict[str, str] = dict(SETTING.findall(TABLE))
NEEDED = [name for line in re.findall(r"^dependencies = \[(.*)\]$", TABLE, re.MULTILINE) for name in re.findall('"([^"]+)"', line)]
MODULE = PROJECT["name"].replace("-", "_")
VERSION: str = dict(SETTING.findall((HERE / MODULE / "__init__.py").read_text()))["__version__"]
STEM = f"{MODULE}-{VERSION}"
INFO = f"{STEM}.dist-info"
WHEEL = "Wheel-Version: 1.0\nGenerator: csa build_backend\nRoot-Is-Purelib: true\nTag: py3-none-any\n"


def build_wheel(wheel_directory: str, config_settings: dict[str, object] | None = None, metadata_directory: str | None = None) -> str:
    """Writes the wheel, the same bytes from the same sources, and returns its name."""
    files = {path: (HERE / path).read_bytes() for path in package()}
    files |= {f"{INFO}/METADATA": metadata().encode(), f"{INFO}/WHEEL": WHEEL.encode()}
    files[f"{INFO}/RECORD"] = record_of(files).encode()
    name = f"{STEM}-py3-none-any.whl"
    with zipfile.ZipFile(Path(wheel_directory, name), "w", zipfile.ZIP_DEFLATED) as wheel:
        for path, content in files.items():
            wheel.writestr(zipfile.ZipInfo(path), content, zipfile.ZIP_DEFLATED)
    return name


def build_sdist(sdist_directory: str, config_settings: dict[str, object] | None = None) -> str:
    """Writes an archive of the sources of the wheel, and returns its name."""
    name = f"{STEM}.tar.gz"
    with tarfile.open(Path(sdist_directory, name), "w:gz", format=tarfile.PAX_FORMAT, dereference=True) as archive:
        for path in ("pyproject.toml", "README.md", "build_backend.py", *package()):
            archive.add(HERE / path, f"{STEM}/{path}")
    return name


def package() -> list[str]:
    """The package's files."""
    files = (path for path in (HERE / MODULE).rglob("*") if path.is_file() and path.suffix != ".pyc")
    return sorted(str(path.relative_to(HERE)) for path in files)


def metadata() -> str:
    """The core metadata, with the README as the description."""
    fields = {
        "Metadata-Version": "2.1",
        "Name": PROJECT["name"],
        "Version": VERSION,
        "Summary": PROJECT["description"],
        "Requires-Python": PROJECT["requires-python"],
        "Description-Content-Type": "text/markdown",
    }
    needed = "".join(f"Requires-Dist: {name}\n" for name in NEEDED)
    return "".join(f"{name}: {value}\n" for name, value in fields.items()) + needed + "\n" + (HERE / PROJECT["readme"]).read_text()


def record_of(files: dict[str, bytes]) -> str:
    """The list of the wheel's files with their sums and sizes; its own line has neither."""
    sums = {path: base64.urlsafe_b64encode(hashlib.sha256(content).digest()).rstrip(b"=").decode() for path, content in files.items()}
    return "".join(f"{path},sha256={sums[path]},{len(content)}\n" for path, content in files.items()) + f"{INFO}/RECORD,,\n"
