"""Tests of the build backend: what a wheel and a source archive have in them, and their versions."""
import importlib
import os
import subprocess
import sys
import tarfile
import tempfile
import time
import unittest
import zipfile
from unittest import mock

sys.path.insert(0, os.path.join(os.path.dirname(os.path.dirname(os.path.abspath(__file__))), "build_backend"))

import psu_build  # noqa: E402
from psu import build_note  # noqa: E402


class Build(unittest.TestCase):
    def setUp(self):
        folder = tempfile.TemporaryDirectory()
        self.addCleanup(folder.cleanup)
        self.folder = folder.name

    def wheel(self, build):
        archive = zipfile.ZipFile(os.path.join(self.folder, build(self.folder)))
        self.addCleanup(archive.close)
        return archive

    def test_a_wheel_has_the_modules_and_a_record_of_them(self):
        archive = self.wheel(psu_build.build_wheel)
        folder = psu_build.metadata_folder()
        for name in ("psu/client.py", "psu/panel.html", "psu/panel.js", "psu/py.typed"):
            self.assertIn(name, archive.namelist())
        record = archive.read(f"{folder}/RECORD").decode().splitlines()
        self.assertEqual([it.split(",")[0] for it in record], archive.namelist())
        for line in record[:-1]:
            path, digest, size = line.split(",")
            content = archive.read(path)
            self.assertEqual((digest, int(size)), (f"sha256={psu_build.digest(content)}", len(content)))

    def test_the_entry_points(self):
        archive = self.wheel(psu_build.build_wheel)
        text = archive.read(f"{psu_build.metadata_folder()}/entry_points.txt").decode()
        self.assertIn("[pytest11]\npsu = psu_pytest\n", text)
        self.assertIn("psu-relay = psu.relay:main\n", text)

    def test_the_same_sources_make_the_same_bytes(self):
        for build in (psu_build.build_wheel, psu_build.build_sdist):
            with self.subTest(build=build):
                first = open_bytes(self.folder, build(self.folder))
                # A time of day in the archive would be another two seconds later.
                with mock.patch("time.time", return_value=time.time() + 2):
                    self.assertEqual(open_bytes(self.folder, build(self.folder)), first)

    def test_the_metadata_keep_it_from_an_index(self):
        self.assertIn(b"\nClassifier: Private :: Do Not Upload\n", psu_build.metadata_text())

    def test_the_package_of_a_build_says_its_version(self):
        archive = self.wheel(psu_build.build_wheel)
        root = archive.read("psu/__init__.py").decode()
        self.assertIn(f'\n__version__ = "{psu_build.version()}"\n', root)
        self.assertEqual(build_note.fields_of(archive.read("psu/BUILD").decode())["version"], psu_build.version())

    def test_an_editable_wheel_points_to_this_folder(self):
        archive = self.wheel(psu_build.build_editable)
        self.assertEqual(archive.read("__editable__.psu.pth").decode(), f"{psu_build.FOLDER}\n")

    def test_a_source_archive_has_what_a_build_needs(self):
        with tarfile.open(os.path.join(self.folder, psu_build.build_sdist(self.folder))) as archive:
            names = {it.partition("/")[2] for it in archive.getnames()}
        needed = {"PKG-INFO", "README.md", "pyproject.toml", "build_backend/psu_build.py", "psu/__init__.py", "psu/BUILD"}
        self.assertEqual(needed - names, set())

    def test_a_build_from_a_source_archive_has_the_version_of_the_archive(self):
        with tarfile.open(os.path.join(self.folder, psu_build.build_sdist(self.folder))) as archive:
            archive.extractall(self.folder)
        unpacked = os.path.join(self.folder, f"psu-{psu_build.version()}")
        code = "import psu_build; print(psu_build.version())"
        command = [sys.executable, "-c", code]
        ended = subprocess.run(command, cwd=os.path.join(unpacked, "build_backend"), stdout=subprocess.PIPE, check=True)
        self.assertEqual(ended.stdout.decode().strip(), psu_build.version())

    def test_nothing_is_needed_for_a_build(self):
        self.assertEqual(psu_build.get_requires_for_build_wheel(), [])
        self.assertEqual(psu_build.get_requires_for_build_editable(), [])


class Versions(unittest.TestCase):
    """A later commit has a higher version, for pip (numbers of a local version) and for dpkg (digits)."""

    NAME = "0a33cdb0" + "0" * 32
    SECONDS = 1796113087  # 2026-12-01 08:18:07 UTC

    def test_a_version_has_the_time_and_the_commit(self):
        commit = build_note.Commit(self.NAME, self.SECONDS, False)
        self.assertEqual(commit.version("1.0"), "1.0+20261201081807.g0a33cdb")
        self.assertEqual(commit._replace(is_changed=True).version("1.0"), "1.0+20261201081807.g0a33cdb.changed")
        self.assertEqual(str(commit), f"{self.NAME} of 2026-12-01 08:18:07 UTC")

    def test_without_a_clone(self):
        with tempfile.TemporaryDirectory() as folder, mock.patch.dict(os.environ, SOURCE_DATE_EPOCH=str(self.SECONDS)):
            self.assertEqual(build_note.commit_of(folder).version("1.0"), "1.0+20261201081807")
            del os.environ["SOURCE_DATE_EPOCH"]
            self.assertEqual(build_note.commit_of(folder).version("1.0"), "1.0")

    def test_a_clone_around_another_folder_is_not_its_clone(self):
        with tempfile.TemporaryDirectory() as folder:
            inside = os.path.join(folder, "inside")
            os.mkdir(inside)
            if build_note.git(folder, "init") is None:
                self.skipTest("no git")
            self.assertIsNone(build_note.commit_of(inside).name)

    def test_two_builds_of_one_day_are_in_order(self):
        earlier = build_note.Commit("f" * 40, self.SECONDS, False).version("1.0")
        later = build_note.Commit("0" * 40, self.SECONDS + 60, False).version("1.0")
        with_version = importlib.util.find_spec("packaging")
        if with_version is None:
            self.skipTest("no module packaging")
        from packaging.version import Version

        self.assertLess(Version("1.0"), Version(earlier))
        self.assertLess(Version(earlier), Version(later))
        self.assertEqual(str(Version(later)), later)  # it is written as pip writes it


def open_bytes(*path):
    with open(os.path.join(*path), "rb") as it:
        return it.read()


if __name__ == "__main__":
    unittest.main()
