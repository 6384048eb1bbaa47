"""Tests of `./psu`, the script of the repository: when it builds the program anew, and when not.

Needs pytest and a clone of the repository; not the program: python3 -m pytest test_first_start.py
The script and tools/sources are those of the clone, in a small repository whose tools/build only says that it built.
"""
import os
import shutil
import subprocess
import time

import pytest

TOP = os.path.dirname(os.path.dirname(os.path.abspath(__file__)))
BUILD = """#!/bin/sh
echo built >> built
printf '#!/bin/sh\\necho "program of %s" "$*"\\n' "$(cat crates/psu/src/main.rt)" > crates/psu/out/psu
chmod +x crates/psu/out/psu
"""
HOUR = 3600

pytestmark = pytest.mark.skipif(not os.path.isfile(os.path.join(TOP, "tools", "sources")), reason="this is no clone")


class Repository:
    """A small repository with the script, a source, and a build that only says so."""

    def __init__(self, folder):
        self.folder = folder
        for path in ("crates/psu/src", "crates/psu/out", "tools"):
            os.makedirs(folder / path)
        for path in ("psu", "tools/sources"):
            shutil.copy(os.path.join(TOP, path), folder / path)
        (folder / "tools" / "build").write_text(BUILD)
        os.chmod(folder / "tools" / "build", 0o755)
        (folder / "crates.txt").write_text("psu:\n")
        (folder / "HANDLES").write_text("")
        self.source = folder / "crates" / "psu" / "src" / "main.rt"
        self.program = folder / "crates" / "psu" / "out" / "psu"
        self.note = folder / "crates" / "psu" / "out" / "psu.sources"
        self.source.write_text("one")

    def start(self):
        """Starts ./psu: what it printed, and how often it has built so far."""
        command = [str(self.folder / "psu"), "run"]
        ended = subprocess.run(command, cwd=self.folder, stdout=subprocess.PIPE, stderr=subprocess.PIPE, check=True)
        built = self.folder / "built"
        return ended.stdout.decode().strip(), len(built.read_text().split()) if built.exists() else 0

    def set_time(self, path, hours):
        moment = time.time() + hours * HOUR
        os.utime(path, (moment, moment))


@pytest.fixture
def repository(tmp_path):
    return Repository(tmp_path / "clone")


def test_it_builds_once(repository):
    assert repository.start() == ("program of one run", 1)
    assert repository.start() == ("program of one run", 1)


def test_it_builds_after_an_edit(repository):
    repository.start()
    repository.source.write_text("two")
    assert repository.start() == ("program of two run", 2)
    # Also where the edit has an older time, as what was unpacked from an archive.
    repository.source.write_text("three")
    repository.set_time(repository.source, -48)
    assert repository.start() == ("program of three run", 3)


def test_it_builds_after_a_source_was_added_or_renamed(repository):
    repository.start()
    repository.source.with_name("more.rt").write_text("")
    assert repository.start()[1] == 2
    repository.source.with_name("more.rt").rename(repository.source.with_name("other.rt"))
    assert repository.start()[1] == 3


def test_newer_times_alone_build_nothing(repository):
    """As after a `git checkout` of another commit and back, or with a cache that keeps the program's time."""
    repository.start()
    repository.set_time(repository.source, 2)
    assert repository.start() == ("program of one run", 1)
    repository.set_time(repository.program, -48)
    repository.set_time(repository.note, -48)
    assert repository.start() == ("program of one run", 1)


def test_a_fresh_clone_with_the_program_copied_in(repository, tmp_path):
    repository.start()
    fresh = Repository(tmp_path / "fresh")
    for path in (repository.program, repository.note):
        shutil.copy2(path, fresh.program.parent)
    fresh.set_time(fresh.source, 2)
    assert fresh.start() == ("program of one run", 0)
    # Not where the sources are others, though the program is newer than they are.
    other = Repository(tmp_path / "other")
    other.source.write_text("two")
    other.set_time(other.source, -48)
    for path in (repository.program, repository.note):
        shutil.copy(path, other.program.parent)
    assert other.start() == ("program of two run", 1)


def test_a_program_without_a_note_goes_by_its_time(repository):
    repository.start()
    repository.note.unlink()
    repository.set_time(repository.source, -1)
    assert repository.start() == ("program of one run", 1)
    assert repository.note.exists()
    repository.note.unlink()
    repository.set_time(repository.source, 1)
    assert repository.start() == ("program of one run", 2)


def test_a_note_of_another_program_says_nothing(repository):
    """Such as that of a program which `rt` built, and not this script."""
    repository.start()
    repository.source.write_text("two")
    repository.set_time(repository.source, -1)
    repository.program.write_text("#!/bin/sh\necho program of rt\n")
    assert repository.start() == ("program of rt", 1)


def test_a_build_that_fails_ends_with_status_1(repository):
    (repository.folder / "tools" / "build").write_text("#!/bin/sh\nexit 3\n")
    ended = subprocess.run([str(repository.folder / "psu"), "run"], stdout=subprocess.PIPE, stderr=subprocess.PIPE)
    assert (ended.returncode, ended.stdout) == (1, b"")
    assert not repository.program.exists() and not repository.note.exists()


def test_sources_that_change_during_a_build_are_not_noted(repository):
    build = repository.folder / "tools" / "build"
    build.write_text(BUILD + "echo two > crates/psu/src/main.rt\n")
    repository.start()
    assert not repository.note.exists()
