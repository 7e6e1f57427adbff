"""Makes the wheel of ``lock_bench``, with the proved shared object, the manual page and what shells complete in it (the hooks of PEP 517 and, for
``pip install -e``, PEP 660).

There is a backend of our own since the usual ones would have to be downloaded, and since the wheel has a library that ``rt`` makes. ``./bench build`` shows how
far that is; pip shows nothing. A library that ``LOCK_BENCH_LIBRARY`` names is taken as it is.
"""

from __future__ import annotations

import base64
import hashlib
import sys
import sysconfig
import tomllib
import zipfile
from collections.abc import Mapping
from pathlib import Path
from typing import Any, Final

# The package is imported from the sources, which are to stay as they are.
sys.dont_write_bytecode = True

from lock_bench import cli, completion, identity, manual, native  # noqa: E402
from lock_bench.linking import SHARED  # noqa: E402

_HERE: Final = Path(__file__).resolve().parent
_PROJECT: Final[dict[str, Any]] = tomllib.loads((_HERE / "pyproject.toml").read_text("utf-8"))["project"]
_NAME: Final = str(_PROJECT["name"]).replace("-", "_")

Settings = Mapping[str, Any] | None


def get_requires_for_build_wheel(config_settings: Settings = None) -> list[str]:
    """Nothing is needed."""
    return []


get_requires_for_build_editable = get_requires_for_build_wheel


def build_wheel(wheel_directory: str, config_settings: Settings = None, metadata_directory: str | None = None) -> str:
    """Writes the wheel, and gives its name."""
    package = _HERE / "lock_bench"
    files = {f"lock_bench/{path.name}": path.read_bytes() for path in sorted(package.iterdir()) if path.is_file() and path.name != SHARED}
    files[f"lock_bench/{SHARED}"] = native.load().path.read_bytes()
    return _write(Path(wheel_directory), files)


def build_editable(wheel_directory: str, config_settings: Settings = None, metadata_directory: str | None = None) -> str:
    """Writes a wheel that leads to the sources, and gives its name."""
    return _write(Path(wheel_directory), {"lock_bench.pth": f"{_HERE}\n".encode()})


def build_sdist(sdist_directory: str, config_settings: Settings = None) -> str:
    """There is none: the library's sources are the whole repository."""
    raise UnsupportedOperation("the sources of lock-bench are its repository; make a wheel: pip wheel bindings/python")


class UnsupportedOperation(Exception):
    """What this backend does not do (the name is PEP 517's)."""


def _write(folder: Path, files: dict[str, bytes]) -> str:
    """Writes a wheel of these files."""
    stem = f"{_NAME}-{identity.version()}"
    tag = f"py3-none-{sysconfig.get_platform().replace('-', '_').replace('.', '_')}"
    scripts = "".join(f"{name} = {function}\n" for name, function in _PROJECT["scripts"].items())
    files = files | {
        f"{stem}.data/data/share/man/man1/bench.1": manual.page("bench", cli.commands()).encode("ascii"),
        **{f"{stem}.data/data/share/{place}": completion.script(shell, cli.parser()).encode() for shell, place in completion.PLACES.items()},
        f"{stem}.dist-info/METADATA": _metadata().encode(),
        f"{stem}.dist-info/WHEEL": f"Wheel-Version: 1.0\nGenerator: wheel_backend\nRoot-Is-Purelib: false\nTag: {tag}\n".encode(),
        f"{stem}.dist-info/entry_points.txt": f"[console_scripts]\n{scripts}".encode(),
    }
    record = f"{stem}.dist-info/RECORD"
    listed = "".join(f"{name},sha256={_sum(data)},{len(data)}\n" for name, data in files.items())
    with zipfile.ZipFile(folder / f"{stem}-{tag}.whl", "w", zipfile.ZIP_DEFLATED) as wheel:
        for name, data in (*files.items(), (record, f"{listed}{record},,\n".encode())):
            entry = zipfile.ZipInfo(name)
            entry.external_attr = 0o100755 << 16 if name.endswith(".so") else 0o100644 << 16
            entry.compress_type = zipfile.ZIP_DEFLATED
            wheel.writestr(entry, data)
    return f"{stem}-{tag}.whl"


def _metadata() -> str:
    readme = (_HERE / _PROJECT["readme"]).read_text("utf-8")
    return (
        f"Metadata-Version: 2.1\nName: {_PROJECT['name']}\nVersion: {identity.version()}\nSummary: {_PROJECT['description']}\n"
        f"Requires-Python: {_PROJECT['requires-python']}\nDescription-Content-Type: text/markdown\n\n{readme}"
    )


def _sum(data: bytes) -> str:
    return base64.urlsafe_b64encode(hashlib.sha256(data).digest()).rstrip(b"=").decode("ascii")
