"""What the Debian package and the wheel are made of: the program without its symbols, and the note of the build.

tools/package and tools/wheel import it. Needs objdump and strip (binutils).
"""
import functools
import os
import re
import subprocess
import sys
import tempfile

ROOT = os.path.dirname(os.path.dirname(os.path.abspath(__file__)))
BUILT = os.path.join(ROOT, "crates", "psu", "out", "psu")
# A symbol of this version is no function: a program needs a C library that can read its short form of relocations.
SHORT_RELOCATIONS = "GLIBC_ABI_DT_RELR"
FIRST_WITH_SHORT_RELOCATIONS = "2.36"


class Unmade(Exception):
    """Why no package was made."""


def repository(*words):
    return os.path.join(ROOT, *words)


def output_of(*command, **how):
    return subprocess.run(command, check=True, stdout=subprocess.PIPE, text=True, **how).stdout


def in_numbers(version):
    return [int(part) for part in version.split(".")]


@functools.lru_cache(maxsize=None)
def python_package():
    """Returns the build backend of the Python package, which says what belongs to it."""
    sys.path.insert(0, repository("python", "build_backend"))
    import psu_build

    return psu_build


class Parts:
    """A program with all that its packages say of it."""

    def __init__(self, path):
        if not os.access(path, os.X_OK):
            raise Unmade(f"no program {path}: build it with ./psu run < crates/psu/stdin")
        self.path = path
        self.package = python_package()
        self.notes = self.package.build_note()
        self.commit = self.notes.commit_of(ROOT)
        self.time = self.package.source_time()
        self.version = self.package.version()
        self.check_version()
        self.program = self.stripped()

    def check_version(self):
        """The program has the version of the package, without the time of the build."""
        fields = output_of(self.path, "run", input="*IDN?\n").strip().split(",")
        if len(fields) != 4 or fields[3] != self.package.base_version():
            raise Unmade(f"{self.path} answers {','.join(fields)} to *IDN?, not version {self.package.base_version()}")

    def stripped(self):
        """Returns the bytes of the program without its symbols."""
        with tempfile.TemporaryDirectory() as folder:
            path = os.path.join(folder, "psu")
            sections = ["--remove-section=.comment", "--remove-section=.note"]
            subprocess.run(["strip", *sections, "-o", path, self.path], check=True)
            with open(path, "rb") as it:
                return it.read()

    def libraries(self):
        """Returns the names of the libraries that the program loads."""
        return set(re.findall(r"NEEDED +(\S+)", output_of("objdump", "-p", self.path)))

    def machine(self):
        """Returns the processor that the program is for, as objdump names it."""
        return re.search(r"^architecture: ([^,]+)", output_of("objdump", "-f", self.path), re.M)[1]

    def c_library(self):
        """Returns the version of the C library that the program needs: the newest that its symbols name."""
        symbols = output_of("objdump", "-T", self.path)
        versions = re.findall(r"\bGLIBC_([0-9.]+)", symbols)
        if SHORT_RELOCATIONS in output_of("objdump", "-p", self.path):
            versions.append(FIRST_WITH_SHORT_RELOCATIONS)
        if not versions:
            raise Unmade(f"{self.path} names no version of the C library")
        return max(versions, key=in_numbers)

    def note(self):
        """Returns the note of the build: what the program was made from, before and after its symbols were removed."""
        return self.notes.written(
            version=self.version,
            commit=self.commit,
            sources=f"{output_of(repository('tools', 'sources')).strip()} (tools/sources)",
            made=f"from {self.noted_sources()}",
            toolchain=toolchain(),
            built=self.notes.described(self.path_bytes()),
            program=self.notes.described(self.program),
        )

    def path_bytes(self):
        with open(self.path, "rb") as it:
            return it.read()

    def noted_sources(self):
        """What `./psu` noted beside the program: whether it was built from the sources that are here."""
        try:
            with open(f"{self.path}.sources", encoding="ascii") as file:
                sources, noted = file.read().split()
        except (OSError, ValueError):
            return "sources that were not noted"
        if noted != self.notes.sum_of(self.path_bytes()):
            return "sources that were noted of another program"
        is_of_these = sources == output_of(repository("tools", "sources")).strip()
        return "these sources" if is_of_these else "others than these sources"


def toolchain():
    try:
        return output_of("rt", "version", stderr=subprocess.DEVNULL).strip()
    except (OSError, subprocess.CalledProcessError):
        return "not there when the package was made"
