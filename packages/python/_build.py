"""Builds the wheel and the source archive, with nothing but the standard library, so that pip needs no network.

The wheel contains the program of `dist/` and the script before it, or those of `equity/run` if the package was taken out of its
checkout. Its entries are sorted and have a fixed date, so the same files give the same bytes.
"""

from __future__ import annotations

import base64
import gzip
import hashlib
import io
import re
import stat
import tarfile
import zipfile
from pathlib import Path
from typing import Any, Optional

HERE = Path(__file__).resolve().parent
DATE = (2020, 1, 1, 0, 0, 0)
# the script before the program, and the program, laid out as ./install does it
SCRIPT, PROGRAM, NUMBER = "equity/run/bin/equity", "equity/run/libexec/equity/equity", "equity/run/libexec/equity/VERSION"
# what the script reads if it has something to say
TELL = "equity/run/libexec/equity/tell.sh"
MODE = 0o755


def _dist() -> Path:
    return HERE.parent.parent / "dist"


def _program() -> Optional[Path]:
    for path in (_dist() / "equity", HERE / PROGRAM):
        if path.is_file():
            return path
    return None


def _run_files() -> dict[str, bytes]:
    """The program with the script before it, or nothing if there is no program to pack."""
    program = _program()
    if program is None:
        return {}
    script, tell = (
        next(path for path in (HERE.parent.parent / name, HERE / packed) if path.is_file())
        for name, packed in (("run.sh", SCRIPT), ("tell.sh", TELL))
    )
    return {SCRIPT: script.read_bytes(), TELL: tell.read_bytes(), PROGRAM: program.read_bytes(), NUMBER: f"{_version()}\n".encode()}


def _release() -> dict[str, str]:
    """The lines KEY VALUE of RELEASE, or of the copy that an archive of this package has."""
    for path in (_dist() / "RELEASE", HERE / "RELEASE"):
        if path.is_file():
            return dict(line.split(" ", 1) for line in path.read_text().splitlines() if " " in line)
    return {}


def _version() -> str:
    for path in (HERE.parent.parent / "VERSION", HERE / "VERSION"):
        if path.is_file():
            return path.read_text().strip()
    raise SystemExit("packages/python: there is no file VERSION")


def _tag() -> str:
    """For Linux with the C library that the program needs, or for any system if there is no program to pack."""
    if _program() is None:
        return "py3-none-any"
    glibc = re.match(r"(\d+)\.(\d+)", _release().get("glibc", ""))
    return f"py3-none-manylinux_{glibc[1]}_{glibc[2]}_x86_64" if glibc else "py3-none-linux_x86_64"


def _metadata() -> bytes:
    readme = (HERE / "README.md").read_text()
    head = [
        "Metadata-Version: 2.1",
        "Name: equity",
        f"Version: {_version()}",
        "Summary: Exact, proved audits of poker all-ins",
        "Requires-Python: >=3.11",
        "Description-Content-Type: text/markdown",
    ]
    return ("\n".join(head) + "\n\n" + readme).encode()


def _modules() -> dict[str, bytes]:
    files = sorted((HERE / "equity").glob("*.py")) + [HERE / "equity" / "py.typed"]
    return {f"equity/{path.name}": path.read_bytes() for path in files}


def _wheel_info() -> tuple[str, dict[str, bytes]]:
    folder = f"equity-{_version()}.dist-info"
    wheel = f"Wheel-Version: 1.0\nGenerator: equity\nRoot-Is-Purelib: false\nTag: {_tag()}\n"
    return folder, {f"{folder}/METADATA": _metadata(), f"{folder}/WHEEL": wheel.encode()}


def _write_wheel(folder: str, files: dict[str, bytes], info: str) -> str:
    record = []
    for name, data in sorted(files.items()):
        digest = base64.urlsafe_b64encode(hashlib.sha256(data).digest()).rstrip(b"=").decode()
        record.append(f"{name},sha256={digest},{len(data)}")
    record.append(f"{info}/RECORD,,")
    files = {**files, f"{info}/RECORD": ("\n".join(record) + "\n").encode()}
    name = f"equity-{_version()}-{_tag()}.whl"
    with zipfile.ZipFile(Path(folder) / name, "w", zipfile.ZIP_DEFLATED) as archive:
        for path, data in sorted(files.items()):
            entry = zipfile.ZipInfo(path, DATE)
            entry.compress_type = zipfile.ZIP_DEFLATED
            # pip keeps the mode of a regular file
            entry.external_attr = (stat.S_IFREG | (MODE if path in (SCRIPT, PROGRAM) else 0o644)) << 16
            archive.writestr(entry, data)
    return name


def build_wheel(wheel_directory: str, config_settings: Any = None, metadata_directory: Any = None) -> str:
    info, files = _wheel_info()
    files.update(_modules())
    files.update(_run_files())
    return _write_wheel(wheel_directory, files, info)


def build_editable(wheel_directory: str, config_settings: Any = None, metadata_directory: Any = None) -> str:
    info, files = _wheel_info()
    files["equity.pth"] = f"{HERE}\n".encode()
    return _write_wheel(wheel_directory, files, info)


def build_sdist(sdist_directory: str, config_settings: Any = None) -> str:
    base = f"equity-{_version()}"
    files = {"PKG-INFO": _metadata(), "VERSION": f"{_version()}\n".encode(), **_modules()}
    for name in ("README.md", "pyproject.toml", "_build.py"):
        files[name] = (HERE / name).read_bytes()
    release = _dist() / "RELEASE"
    if release.is_file():
        files["RELEASE"] = release.read_bytes()
    files.update(_run_files())
    bare = io.BytesIO()
    with tarfile.open(fileobj=bare, mode="w", format=tarfile.GNU_FORMAT) as archive:
        for path, data in sorted(files.items()):
            entry = tarfile.TarInfo(f"{base}/{path}")
            entry.size, entry.mode = len(data), MODE if path in (SCRIPT, PROGRAM) else 0o644
            archive.addfile(entry, io.BytesIO(data))
    name = f"{base}.tar.gz"
    (Path(sdist_directory) / name).write_bytes(gzip.compress(bare.getvalue(), 9, mtime=0))
    return name
