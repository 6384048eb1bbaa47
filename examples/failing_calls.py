"""Makes system calls of a program fail, for tests of what it does then. Linux on x86-64, without any privilege.

Needs Python 3.8 or later; no package. As a module, for the start of a process:
    subprocess.run(command, preexec_fn=fail({"fdatasync": errno.EIO}))
The process and all that it starts get that error from that call, whatever the call's arguments are.
As a program it starts one under it: python3 failing_calls.py flock=ENOLCK -- psu serve bench.psu
"""
import argparse
import ctypes
import errno
import os
import struct
import sys

NUMBERS = {"pread64": 17, "pwrite64": 18, "listen": 50, "flock": 73, "fsync": 74, "fdatasync": 75, "clone3": 435}
X86_64 = 0xC000003E
# The words of the kernel's filter: load a word, compare and skip, return.
LOAD, JUMP_IF_EQUAL, RETURN = 0x20, 0x15, 0x06
ALLOW, ERROR = 0x7FFF0000, 0x00050000
AT_NUMBER, AT_MACHINE = 0, 4
PR_SET_SECCOMP, SECCOMP_MODE_FILTER, PR_SET_NO_NEW_PRIVS = 22, 2, 38


class Program(ctypes.Structure):
    """A filter for prctl: the number of its words, and where they are."""

    _fields_ = [("count", ctypes.c_ushort), ("words", ctypes.c_char_p)]


def filter_of(failures):
    """Returns the words of a filter under which the named calls fail, each with its error, and all others are made."""
    words = [(LOAD, 0, 0, AT_MACHINE), (JUMP_IF_EQUAL, 1, 0, X86_64), (RETURN, 0, 0, ALLOW), (LOAD, 0, 0, AT_NUMBER)]
    for name, number in failures.items():
        words += [(JUMP_IF_EQUAL, 0, 1, NUMBERS[name]), (RETURN, 0, 0, ERROR | number)]
    return b"".join(struct.pack("=HBBI", *it) for it in [*words, (RETURN, 0, 0, ALLOW)])


def fail(failures):
    """Returns a function that makes calls fail from then on, in the process that calls it."""
    words = filter_of(failures)
    library = ctypes.CDLL(None, use_errno=True)

    def apply():
        program = Program(len(words) // 8, words)
        # Without privileges a filter is allowed to those who can't gain any.
        is_bound = library.prctl(PR_SET_NO_NEW_PRIVS, 1, 0, 0, 0) == 0
        if not is_bound or library.prctl(PR_SET_SECCOMP, SECCOMP_MODE_FILTER, ctypes.byref(program)) != 0:
            raise OSError(ctypes.get_errno(), "this system takes no filter of system calls")

    return apply


def failure(word):
    """Reads CALL=ERROR of the command line."""
    name, _, error = word.partition("=")
    if name not in NUMBERS or not hasattr(errno, error):
        raise argparse.ArgumentTypeError(f"{word} is not one of {', '.join(NUMBERS)}, `=` and the name of an error")
    return name, getattr(errno, error)


def main():
    form = argparse.RawDescriptionHelpFormatter
    parser = argparse.ArgumentParser(description=__doc__, formatter_class=form)
    parser.add_argument("failures", nargs="+", type=failure, metavar="CALL=ERROR", help="as flock=ENOLCK")
    split = sys.argv.index("--") if "--" in sys.argv else len(sys.argv)
    words, command = parser.parse_args(sys.argv[1:split]), sys.argv[split + 1 :]
    if not command:
        parser.error("no command after --")
    fail(dict(words.failures))()
    os.execvp(command[0], command)


if __name__ == "__main__":
    main()
