"""Tests of psu.backup that need no server and no program: what it reads of an image, and the files that it makes."""
from __future__ import annotations

import contextlib
import hashlib
import io
import os
import struct
import tempfile
import threading
import unittest
from unittest import mock

from psu import backup


def root(gate: int, number: int) -> bytes:
    return struct.pack(">B3sHHQ", gate, b"PSU", 2, 256, number).ljust(512, b"\0")


class RootNumber(unittest.TestCase):
    def test_the_open_root_with_the_higher_number_counts(self) -> None:
        self.assertEqual(backup.root_number(root(0xA5, 4) + root(0xA5, 5)), 5)
        self.assertEqual(backup.root_number(root(0xA5, 4) + root(0, 5)), 4)
        self.assertEqual(backup.root_number(root(0, 4) + root(0xA5, 2**64 - 1)), 2**64 - 1)

    def test_no_open_root(self) -> None:
        for image in (b"", root(0, 1) + root(0, 2), root(0xA4, 1), root(0xA5, 1)[:100]):
            self.assertIsNone(backup.root_number(image))


class Files(unittest.TestCase):
    def setUp(self) -> None:
        folder = tempfile.TemporaryDirectory()
        self.addCleanup(folder.cleanup)
        self.folder = folder.name
        self.copy = os.path.join(self.folder, "copy.psu")

    def test_a_new_file_is_whole_or_not_there(self) -> None:
        with backup.new_file(self.copy, b"content") as unfinished:
            self.assertEqual(os.listdir(self.folder), [os.path.basename(unfinished)])
        self.assertEqual(os.listdir(self.folder), ["copy.psu"])
        os.unlink(self.copy)
        with self.assertRaises(KeyError), backup.new_file(self.copy, b"content"):
            raise KeyError
        self.assertEqual(os.listdir(self.folder), [])

    def test_an_unfinished_file_that_was_left_behind_is_replaced(self) -> None:
        with open(f"{self.copy}.new", "wb") as file:
            file.write(b"of a run that was killed")
        with backup.new_file(self.copy, b"content"):
            pass
        self.assertEqual(os.listdir(self.folder), ["copy.psu"])
        with open(self.copy, "rb") as file:
            self.assertEqual(file.read(), b"content")

    def test_runs_into_one_folder_wait_for_each_other(self) -> None:
        has_waited = threading.Event()

        def run() -> None:
            with backup.alone_in(self.folder):
                has_waited.set()

        waiting = threading.Thread(target=run)
        with backup.alone_in(self.folder):
            waiting.start()
            self.assertFalse(has_waited.wait(0.2))
        self.assertTrue(has_waited.wait(10))
        waiting.join()

    def test_check(self) -> None:
        with open(self.copy, "wb") as file:
            file.write(b"content")
        with open(f"{self.copy}.sha256", "w", encoding="ascii") as sums:
            sums.write(f"{hashlib.sha256(b'content').hexdigest()}  copy.psu\n")
        backup.check(self.copy)
        with open(self.copy, "ab") as file:
            file.write(b".")
        with self.assertRaises(backup.NotMade):
            backup.check(self.copy)

    def test_an_empty_sum_is_no_sum(self) -> None:
        for path in (self.copy, f"{self.copy}.sha256"):
            open(path, "wb").close()
        with self.assertRaises(backup.NotMade):
            backup.check(self.copy)


class CommandLine(unittest.TestCase):
    def status_of(self, *words: str) -> object:
        with mock.patch("sys.argv", ["psu-backup", *words]), contextlib.redirect_stderr(io.StringIO()):
            try:
                return backup.main()
            except SystemExit as ended:
                return ended.code

    def test_wrong_words(self) -> None:
        for words in ([], ["a"], ["a", "b", "c"], ["--check"], ["--check", "a", "b"]):
            self.assertEqual(self.status_of(*words), 2)

    def test_a_fault_is_one_line(self) -> None:
        line = self.status_of("--check", "/nonexistent")
        self.assertEqual(line, "psu-backup: /nonexistent.sha256: No such file or directory")


if __name__ == "__main__":
    unittest.main()
