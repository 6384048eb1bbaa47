"""Tests of psu.server that need no program: where it is looked for, what a start that fails leaves, and what it says."""
import os
import shutil
import signal
import subprocess
import sys
import tempfile
import textwrap
import unittest
from unittest import mock

from fake_server import wait_until
from psu import Server, ServerNotStarted

PACKAGE = os.path.join(os.path.dirname(os.path.dirname(os.path.abspath(__file__))), "psu")
NOTE = "version    1.0+20261201081807.g0a33cdb\ncommit     0a33cdb\n"
OWN = "program    1 bytes, SHA-256 0\n"


# What stands for `psu`: it makes an empty image, and serves nothing.
PROGRAM = """\
#!/bin/sh
case "$1" in
    make) : > "$2" ;;
    serve) echo "listening on 127.0.0.1:$4"; exec sleep 60 ;;
esac
"""


def write_program(path, text="#!/bin/sh\n"):
    os.makedirs(os.path.dirname(path), exist_ok=True)
    with open(path, "w", encoding="ascii") as file:
        file.write(text)
    os.chmod(path, 0o755)
    return path


class FolderCase(unittest.TestCase):
    def setUp(self):
        folder = tempfile.TemporaryDirectory()
        self.addCleanup(folder.cleanup)
        self.folder = os.path.realpath(folder.name)

    def path(self, *words):
        return os.path.join(self.folder, *words)


class Program(FolderCase):
    """The places in the order in which they are looked at, of a package that is installed in a folder."""

    def setUp(self):
        super().setUp()
        self.on_the_path = write_program(self.path("path", "psu"))
        self.environment = {"PATH": f"{self.path('path')}:{os.environ['PATH']}"}

    def install(self, *modules, note=None):
        """Copies the package below a folder, where a note says what it has."""
        self.modules = self.path(*modules)
        shutil.copytree(PACKAGE, os.path.join(self.modules, "psu"), ignore=shutil.ignore_patterns("__pycache__"))
        if note is not None:
            with open(os.path.join(self.modules, "psu", "BUILD"), "w", encoding="ascii") as file:
                file.write(note)

    def found(self, **environment):
        code = "from psu.server import find_program; print(find_program())"
        how = {"stdout": subprocess.PIPE, "stderr": subprocess.PIPE, "universal_newlines": True}
        variables = {**self.environment, **environment, "PYTHONPATH": self.modules}
        ended = subprocess.run([sys.executable, "-c", code], env=variables, cwd=self.folder, **how)
        return ended.stdout.strip() or ended.stderr.strip().splitlines()[-1]

    def test_the_variable_comes_first(self):
        self.install("lib", "python3", "site-packages", note=NOTE + OWN)
        own = write_program(self.path("bin", "psu"))
        named = write_program(self.path("named"))
        self.assertEqual(self.found(PSU=named), named)
        self.assertEqual(self.found(PSU=""), own)
        self.assertIn("FileNotFoundError: set PSU to the path of the program psu: PSU names /none", self.found(PSU="/none"))

    def test_the_package_s_own_comes_before_the_path(self):
        self.install("lib", "python3", "site-packages", note=NOTE + OWN)
        self.assertEqual(self.found(), self.on_the_path)  # it was removed
        own = write_program(self.path("bin", "psu"))
        self.assertEqual(self.found(), own)

    def test_a_package_in_a_folder_of_its_own(self):
        self.install("target", note=NOTE + OWN)  # pip install --target
        own = write_program(self.path("target", "bin", "psu"))
        self.assertEqual(self.found(), own)

    def test_a_package_without_a_program_takes_that_of_the_path(self):
        self.install("lib", "python3", "site-packages", note=NOTE)
        write_program(self.path("bin", "psu"))
        self.assertEqual(self.found(), self.on_the_path)

    def test_a_clone_s_build_comes_before_the_path(self):
        self.install("clone", "python")
        write_program(self.path("clone", "bin", "psu"))  # of no package
        built = write_program(self.path("clone", "crates", "psu", "out", "psu"))
        self.assertEqual(self.found(), built)

    def test_none(self):
        self.install("clone", "python")
        os.unlink(self.on_the_path)
        self.environment["PATH"] = self.path("path")
        self.assertIn("FileNotFoundError: set PSU to the path of the program psu: neither this package", self.found())


class Starts(FolderCase):
    def setUp(self):
        super().setUp()
        patched = mock.patch("tempfile.tempdir", self.folder)
        patched.start()
        self.addCleanup(patched.stop)

    def assert_not_started(self, text, **how):
        with self.assertRaisesRegex(ServerNotStarted, text), Server(**how):
            pass
        self.assertEqual([it for it in os.listdir(self.folder) if it.startswith("psu-")], [])

    def test_a_start_that_fails_leaves_no_folder_and_says_why(self):
        broken = write_program(self.path("broken"), "#!/bin/sh\necho 'psu: device fault' >&2\nexit 1\n")
        self.assert_not_started("broken make .*bench.psu: psu: device fault$", program=broken)
        silent = write_program(self.path("silent"), "#!/bin/sh\nexit 2\n")
        self.assert_not_started("silent make .*bench.psu: status 2, without a message$", program=silent)
        refusing = write_program(self.path("refusing"), "#!/bin/sh\n[ $1 = make ] || echo 'psu: bad root' >&2\n")
        self.assert_not_started("^psu: bad root$", program=refusing)
        self.assert_not_started("/nonexistent can't be run: No such file or directory$", program="/nonexistent")

    def test_an_image_that_can_t_be_made(self):
        program = write_program(self.path("psu"), "#!/bin/sh\necho 'psu: no such file' >&2\nexit 1\n")
        with self.assertRaisesRegex(ServerNotStarted, "psu make /nonexistent/bench.psu: psu: no such file$"):
            Server("/nonexistent/bench.psu", program).start()

    def test_no_program_and_no_folder(self):
        with mock.patch.dict(os.environ, PSU="/nonexistent"), self.assertRaises(FileNotFoundError):
            Server()
        self.assertEqual(os.listdir(self.folder), [])

    def test_a_program_that_ended_by_itself_is_started_again(self):
        program = write_program(self.path("psu"), PROGRAM.replace("exec sleep 60", "exit 3"))
        with Server(program=program) as server:
            self.assertEqual(server.wait(10), 3)
            self.assertIn("not running", repr(server))
            server.start()
            self.assertEqual(server.wait(10), 3)

    def test_what_it_says_of_itself(self):
        program = write_program(self.path("psu"), PROGRAM)
        with Server(self.path("bench.psu"), program) as server:
            self.assertEqual(repr(server), f"<Server {self.path('bench.psu')}, at 127.0.0.1:{server.port}>")


class Ends(FolderCase):
    """A server ends with the process that started it, however that ends."""

    def start(self, last_line):
        program = write_program(self.path("psu"), PROGRAM)
        code = f"""
            import os, sys, threading, time
            from psu import Server
            server = Server(program={program!r})
            def start():
                server.start()
                print(server.process.pid, flush=True)
            # The thread that starts it may end before the process.
            starting = threading.Thread(target=start)
            starting.start()
            starting.join()
            time.sleep(0.1)
            assert server.is_running
            sys.stdin.readline()
            {last_line}
        """
        how = {"stdin": subprocess.PIPE, "stdout": subprocess.PIPE, "universal_newlines": True}
        variables = {**os.environ, "TMPDIR": self.folder}
        process = subprocess.Popen([sys.executable, "-c", textwrap.dedent(code)], env=variables, **how)
        self.addCleanup(process.stdout.close)
        self.addCleanup(process.wait)
        self.addCleanup(process.stdin.close)
        return process, int(process.stdout.readline())

    def assert_ends(self, pid):
        self.assertTrue(wait_until(lambda: not runs(pid)), "the server runs on")

    def test_by_a_signal(self):
        for number in (signal.SIGTERM, signal.SIGKILL, signal.SIGHUP):
            process, server = self.start("time.sleep(60)")
            self.assertTrue(runs(server))
            process.send_signal(number)
            self.assert_ends(server)

    def test_by_itself(self):
        for last_line in ("os._exit(3)", "os.abort()", "sys.exit(1)", ""):
            process, server = self.start(last_line)
            process.stdin.write("\n")
            process.stdin.flush()
            self.assert_ends(server)

    def test_before_the_server_is_tied_to_it(self):
        program = write_program(self.path("psu"), PROGRAM)
        code = f"""
            import os, signal
            from psu import server
            def tie(_, pid):
                print(pid, flush=True)
                os.kill(os.getpid(), signal.SIGKILL)
            server.Lifeline.tie = tie
            server.Server(program={program!r}).start()
        """
        variables = {**os.environ, "TMPDIR": self.folder}
        ended = subprocess.run([sys.executable, "-c", textwrap.dedent(code)], env=variables, stdout=subprocess.PIPE)
        self.assertEqual(ended.returncode, -signal.SIGKILL)
        self.assert_ends(int(ended.stdout))

    def test_an_end_of_the_interpreter_leaves_no_folder(self):
        process, _ = self.start("")
        process.stdin.write("\n")
        process.stdin.flush()
        process.wait(10)
        self.assertEqual(os.listdir(self.folder), ["psu"])


def runs(pid):
    """Whether a process runs. One that has ended may still be in the table, until it is fetched."""
    try:
        with open(f"/proc/{pid}/stat", encoding="ascii", errors="replace") as file:
            return file.read().rpartition(")")[2].split()[0] != "Z"
    except FileNotFoundError:
        return False


if __name__ == "__main__":
    unittest.main()
