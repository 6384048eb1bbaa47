"""Makes images of the instrument byte by byte, for tests: good ones, and such as `psu` has to refuse.

Needs Python 3.8 or later; no package. As a module:
    make_image([(b"\\x03", b"bench 3")])        the bytes of an image with seven bytes of user data
As a program it writes an empty image to standard output: python3 images.py > empty.psu

The format: pages of 512 bytes, numbers big endian. Pages 0 and 1 are roots: gate (a5 is open), `PSU`, version (2),
limit (2), number (8), number of items (2), the page of each item's head (2 each), zeros. The current root is the open
one with the higher number. Pages from 2 on, twice the limit, are the pool. A head: length of the key (1), key, length
of the value (4), number of its pages (2), their numbers (2 each), zeros. The pages of a value end with zeros.
"""
import argparse
import struct
import sys

PAGE = 512
LIMIT = 256
OPEN, CLOSED = 0xA5, 0
SIZE = (2 + 2 * LIMIT) * PAGE
NO_ROOT = bytes(PAGE)
# What `psu recover` says of an empty image.
FORMATTED = """\
image version 2 root 1
pages 0 of 256
enables none
request none
user 0
macros 0
"""


def pages_for(count):
    return -(-count // PAGE)


def make_root(heads=(), gate=OPEN, mark=b"PSU", version=2, limit=LIMIT, number=1):
    """Returns the page of a root that names the pages of heads."""
    words = struct.pack(">B3sHHQH", gate, mark, version, limit, number, len(heads))
    return (words + struct.pack(f">{len(heads)}H", *heads)).ljust(PAGE, b"\0")


def make_head(key, size, pages):
    """Returns the page of an item's head."""
    words = bytes([len(key)]) + key + struct.pack(">IH", size, len(pages))
    return (words + struct.pack(f">{len(pages)}H", *pages)).ljust(PAGE, b"\0")


def lay_out(items):
    """Returns the pages of the heads of items, and the pool's pages with the items, each after the one before."""
    heads, pool = [], b""
    for key, value in items:
        at = 2 + len(pool) // PAGE
        heads.append(at)
        pages = range(at + 1, at + 1 + pages_for(len(value)))
        pool += make_head(key, len(value), pages) + value.ljust(len(pages) * PAGE, b"\0")
    return heads, pool


def join_pages(roots, pool, limit=LIMIT):
    """Returns an image of two roots and a pool, filled with zeros up to its size."""
    return (b"".join(roots) + pool).ljust((2 + 2 * limit) * PAGE, b"\0")


def make_image(items=(), **words):
    """Returns an image that has these items, with the words of its first root; its second root is closed."""
    heads, pool = lay_out(items)
    return join_pages([make_root(heads, **words), NO_ROOT], pool, words.get("limit", LIMIT))


def main():
    argparse.ArgumentParser(description=__doc__, formatter_class=argparse.RawDescriptionHelpFormatter).parse_args()
    sys.stdout.buffer.write(make_image())


if __name__ == "__main__":
    main()
