"""Builds a wheel of the package with the shared library in it. pip calls it, and downloads nothing for it.

The library is that of bindings/build, or the one that RKYV_BTREE_LIB names.
"""

from __future__ import annotations

import base64
import hashlib
import os
import pathlib
import re
import sysconfig
import zipfile

_HERE = pathlib.Path(__file__).resolve().parent
_LIBRARY = "librkyv_btree.so"


def _field(name: str) -> str:
    """Returns a field of pyproject.toml."""
    found = re.search(rf'^{name} = "(.*)"$', (_HERE / "pyproject.toml").read_text(), re.MULTILINE)
    if found is None:
        raise ValueError(f"pyproject.toml has no {name}")
    return found[1]


def _library() -> pathlib.Path:
    place = pathlib.Path(os.environ.get("RKYV_BTREE_LIB") or _HERE.parent / "build" / _LIBRARY)
    if not place.is_file():
        raise FileNotFoundError(f"no {place}: run `make bindings`, or name the library in RKYV_BTREE_LIB")
    return place


def _tag() -> str:
    return "py3-none-" + re.sub(r"[-.]", "_", sysconfig.get_platform())


def _extras() -> str:
    """Returns the fields of the packages that extras of pyproject.toml name."""
    lines = []
    section = (_HERE / "pyproject.toml").read_text().partition("[project.optional-dependencies]\n")[2]
    for extra, packages in re.findall(r"^(\w+) = \[(.*)\]$", section, re.MULTILINE):
        lines.append(f"Provides-Extra: {extra}\n")
        lines += [f"Requires-Dist: {package} ; extra == '{extra}'\n" for package in re.findall(r'"([^"]+)"', packages)]
    return "".join(lines)


def _metadata() -> str:
    return (
        f"Metadata-Version: 2.1\nName: {_field('name')}\nVersion: {_field('version')}\nSummary: {_field('description')}\n"
        f"Requires-Python: {_field('requires-python')}\nDescription-Content-Type: text/markdown\n"
        f"{_extras()}\n"
        + (_HERE / _field("readme")).read_text()
    )


def _record(files: dict[str, bytes], own: str) -> bytes:
    """Returns the list of the files with their checksums."""
    lines = []
    for name, content in files.items():
        digest = base64.urlsafe_b64encode(hashlib.sha256(content).digest()).rstrip(b"=").decode()
        lines.append(f"{name},sha256={digest},{len(content)}\n")
    return "".join([*lines, f"{own},,\n"]).encode()


def build_wheel(wheel_directory: str, config_settings: object = None, metadata_directory: str | None = None) -> str:
    """Writes the wheel into a folder, and returns its name."""
    named = f"{_field('name').replace('-', '_')}-{_field('version')}"
    sources = sorted(path for path in (_HERE / "rkyv_btree").iterdir() if path.suffix in (".py", ".typed"))
    files = {f"rkyv_btree/{path.name}": path.read_bytes() for path in sources}
    files[f"rkyv_btree/{_LIBRARY}"] = _library().read_bytes()
    files[f"{named}.dist-info/METADATA"] = _metadata().encode()
    files[f"{named}.dist-info/WHEEL"] = f"Wheel-Version: 1.0\nGenerator: rkyv-btree\nRoot-Is-Purelib: false\nTag: {_tag()}\n".encode()
    record = f"{named}.dist-info/RECORD"
    files[record] = _record(files, record)
    wheel = f"{named}-{_tag()}.whl"
    with zipfile.ZipFile(pathlib.Path(wheel_directory) / wheel, "w", zipfile.ZIP_DEFLATED) as archive:
        for name, content in files.items():
            archive.writestr(name, content)
    return wheel
