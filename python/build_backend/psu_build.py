"""The build backend of this package (PEP 517 and 660), from the standard library alone.

tools/package and tools/wheel use it too, to which it says what belongs to the package. Python 3.8 or later. The version
is that of the sources with the commit's time, so a later build is an upgrade. The same commit makes the same bytes:
names are sorted, and all times are the commit's, or that of the variable SOURCE_DATE_EPOCH.
"""
from __future__ import annotations

import base64
import calendar
import functools
import gzip
import hashlib
import importlib.util
import io
import os
import re
import stat
import tarfile
import time
import zipfile
from pathlib import Path
from types import ModuleType
from typing import Dict, List, Optional

FOLDER = os.path.dirname(os.path.dirname(os.path.abspath(__file__)))
NAME = "psu"
SUMMARY = "HiSLIP client, pytest fixtures, relay and raw sockets for the simulated power supply psu"
PYTHON = ">=3.8"
SCRIPTS = {
    "psu-relay": "psu.relay:main",
    "psu-socket": "psu.raw_socket:main",
    "psu-backup": "psu.backup:main",
    "psu-send": "psu.send:main",
    "psu-replay": "psu.replay:main",
    "psu-panel": "psu.panel:main",
}
PLUGINS = {"psu": "psu_pytest"}
TOP_MODULES = ("psu_pytest.py", "psu_pytest_names.py")  # beside the package
KINDS = (".py", ".typed", ".html", ".js")  # of the files of the package
NOTE = f"{NAME}/BUILD"
VERSION = re.compile(r'^__version__ = "([0-9.]+)"$', re.MULTILINE)
ANY = "py3-none-any"
FIRST_TIME = 315532800  # 1980, the first that a zip file can have

Settings = Optional[Dict[str, object]]


# What pip calls


def get_requires_for_build_wheel(config_settings: Settings = None) -> List[str]:
    return []


get_requires_for_build_sdist = get_requires_for_build_editable = get_requires_for_build_wheel


def build_wheel(
    wheel_directory: str, config_settings: Settings = None, metadata_directory: Optional[str] = None
) -> str:
    return written_wheel(wheel_directory, {**modules(note()), **metadata()})


def build_editable(
    wheel_directory: str, config_settings: Settings = None, metadata_directory: Optional[str] = None
) -> str:
    """A wheel whose modules are those of this folder."""
    return written_wheel(wheel_directory, {f"__editable__.{NAME}.pth": f"{FOLDER}\n".encode(), **metadata()})


def build_sdist(sdist_directory: str, config_settings: Settings = None) -> str:
    top = f"{NAME}-{version()}"
    name = f"{top}.tar.gz"
    packed = io.BytesIO()
    with tarfile.open(fileobj=packed, mode="w", format=tarfile.PAX_FORMAT) as archive:
        for path, content in {**sources(), NOTE: note().encode(), "PKG-INFO": metadata_text()}.items():
            entry = tarfile.TarInfo(f"{top}/{path}")
            entry.size, entry.mtime = len(content), source_time()
            archive.addfile(entry, io.BytesIO(content))
    with open(os.path.join(sdist_directory, name), "wb") as file:
        file.write(gzip.compress(packed.getvalue(), 9, mtime=source_time()))
    return name


# What is in them


@functools.lru_cache(maxsize=None)
def build_note() -> ModuleType:
    """Returns the module of the package that knows what a note of a build says; the package itself is not imported."""
    place = importlib.util.spec_from_file_location("psu_build_note", os.path.join(FOLDER, NAME, "build_note.py"))
    assert place is not None and place.loader is not None
    module = importlib.util.module_from_spec(place)
    place.loader.exec_module(module)
    return module


@functools.lru_cache(maxsize=None)
def note() -> str:
    """Returns the note of this build: that of a source archive, or in a clone what git says."""
    try:
        return Path(FOLDER, NOTE).read_bytes().decode()
    except FileNotFoundError:
        commit = build_note().commit_of(os.path.dirname(FOLDER))
        return str(build_note().written(version=commit.version(base_version()), commit=commit))


def modules(build: str) -> Dict[str, bytes]:
    """Returns the files of the package, by their paths in a wheel, with this note of the build."""
    folder = os.path.join(FOLDER, NAME)
    names = [f"{NAME}/{it}" for it in sorted(os.listdir(folder)) if it.endswith(KINDS)]
    files = {it: Path(FOLDER, it).read_bytes() for it in [*names, *TOP_MODULES]}
    root = f"{NAME}/__init__.py"
    files[root] = VERSION.sub(f'__version__ = "{version()}"', files[root].decode()).encode()
    return {**files, NOTE: build.encode()}


def metadata(tag: str = ANY) -> Dict[str, bytes]:
    """Returns the files that say what the package is, without the list of files of a wheel."""
    folder = metadata_folder()
    is_pure = "true" if tag == ANY else "false"
    wheel = f"Wheel-Version: 1.0\nGenerator: {NAME}\nRoot-Is-Purelib: {is_pure}\nTag: {tag}\n"
    return {
        f"{folder}/METADATA": metadata_text(),
        f"{folder}/WHEEL": wheel.encode(),
        f"{folder}/entry_points.txt": entry_points().encode(),
    }


def metadata_folder() -> str:
    return f"{NAME}-{version()}.dist-info"


def base_version() -> str:
    """Returns the version of the sources, without the time of a build."""
    found = VERSION.search(Path(FOLDER, NAME, "__init__.py").read_bytes().decode())
    if found is None:
        raise ValueError("psu/__init__.py has no version")
    return found.group(1)


def version() -> str:
    return str(build_note().fields_of(note())["version"])


def metadata_text() -> bytes:
    fields = {
        "Metadata-Version": "2.1",
        "Name": NAME,
        "Version": version(),
        "Summary": SUMMARY,
        "Requires-Python": PYTHON,
        "Classifier": "Private :: Do Not Upload",  # while no licence is chosen; indexes refuse it
        "Description-Content-Type": "text/markdown",
    }
    lines = "".join(f"{key}: {value}\n" for key, value in fields.items())
    return f"{lines}\n".encode() + Path(FOLDER, "README.md").read_bytes()


def entry_points() -> str:
    sections = {"console_scripts": SCRIPTS, "pytest11": PLUGINS}
    lines = [f"[{name}]\n" + "".join(f"{key} = {it}\n" for key, it in of.items()) for name, of in sections.items()]
    return "\n".join(lines)


def sources() -> Dict[str, bytes]:
    paths = ["README.md", "CALLS.md", "pyproject.toml", *TOP_MODULES]
    for folder in (NAME, "build_backend", "tests"):
        names = sorted(os.listdir(os.path.join(FOLDER, folder)))
        paths += [f"{folder}/{it}" for it in names if it.endswith(KINDS)]
    return {it: Path(FOLDER, it).read_bytes() for it in paths}


# How a wheel is written


def written_wheel(directory: str, files: Dict[str, bytes], tag: str = ANY) -> str:
    name = f"{NAME}-{version()}-{tag}.whl"
    record = f"{metadata_folder()}/RECORD"
    rows = [f"{path},sha256={digest(content)},{len(content)}\n" for path, content in files.items()]
    with zipfile.ZipFile(os.path.join(directory, name), "w", zipfile.ZIP_DEFLATED) as archive:
        for path, content in {**files, record: "".join([*rows, f"{record},,\n"]).encode()}.items():
            entry = zipfile.ZipInfo(path, time.gmtime(source_time())[:6])
            entry.external_attr = (stat.S_IFREG | (0o755 if path.startswith(scripts_folder()) else 0o644)) << 16
            entry.compress_type = zipfile.ZIP_DEFLATED
            archive.writestr(entry, content)
    return name


def data_folder() -> str:
    """Returns the folder of a wheel whose files pip puts beside the modules."""
    return f"{NAME}-{version()}.data"


def scripts_folder() -> str:
    """Returns the folder of a wheel whose files become programs."""
    return f"{data_folder()}/scripts"


def digest(content: bytes) -> str:
    return base64.urlsafe_b64encode(hashlib.sha256(content).digest()).rstrip(b"=").decode()


def source_time() -> int:
    """Returns the time of all files, in seconds since 1970."""
    built = re.search(r"\+(\d{14})", version())
    of_commit = calendar.timegm(time.strptime(built.group(1), "%Y%m%d%H%M%S")) if built else 0
    return max(int(os.environ.get("SOURCE_DATE_EPOCH", of_commit)), FIRST_TIME)
