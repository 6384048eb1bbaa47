"""Tests of good and of damaged images: what `psu recover`, `psu run` and `psu serve` say of them, and leave of them.

Needs pytest and the program `psu` (conftest.py says where it is looked for): python3 -m pytest test_images.py
The images are made byte by byte from the description of their format (images.py), none of them by the program.
"""
import pytest

import psu_path  # noqa: F401  (finds ../python)
from images import FORMATTED, LIMIT, NO_ROOT, OPEN, PAGE, SIZE, join_pages, lay_out, make_head, make_image, make_root
from psu.server import free_port
from running import fault, image, psu  # noqa: F401  (image is a fixture)

# Good images

SETTINGS = bytes.fromhex("14820000ea6000" + "00000000ea6000" * 3)  # output 1 at 5.25 V, all else as after *RST
RESET = bytes.fromhex("00000000ea6000" * 4)
ENABLES = (b"\x01", bytes([32, 128]))
ALL_KINDS = [
    ENABLES,
    (b"\x02\x03", SETTINGS),
    (b"\x03", b"bench 3"),
    (b"\x04", b"\x04SETV\x00\x07VOLT $1" + b"\x02ON\x00\x06OUTP 1"),
    (b"\x05A", b"\x00xyz"),
    (b"\x05last.mac", b"\x02" + bytes(600)),
    (b"\x05state", b"\x01" + SETTINGS),
    (b"\x06", b"\x01"),
]
NOTHING = "enables none\nrequest none\nuser 0\nmacros 0\n"
ALL_KINDS_REPORTED = """\
image version 2 root 7
pages 17 of 256
enables 32 128
request 96
power RCL0
user 7
macros 2
file A,BIN,3
file last.mac,MACR,600
file state,STAT,28
"""
GOOD = {
    "formatted": (make_image(), FORMATTED),
    "version 1": (make_image(version=1), f"image version 1 root 1\npages 0 of 256\n{NOTHING}"),
    "a file": (
        make_image([(b"\x05A", b"\x00xyz")], version=1, number=2),
        f"image version 1 root 2\npages 2 of 256\n{NOTHING}file A,BIN,3\n",
    ),
    "all kinds of items": (make_image(ALL_KINDS, number=7), ALL_KINDS_REPORTED),
    "the greatest number": (
        make_image(number=2**64 - 1),
        f"image version 2 root 18446744073709551615\npages 0 of 256\n{NOTHING}",
    ),
    "the least limit": (make_image(limit=4), f"image version 2 root 1\npages 0 of 4\n{NOTHING}"),
    "the greatest limit": (make_image(limit=480), f"image version 2 root 1\npages 0 of 480\n{NOTHING}"),
    "bytes after the pool": (make_image() + b"more", f"image version 2 root 1\npages 0 of 256\n{NOTHING}"),
}


@pytest.mark.parametrize("name", GOOD)
def test_recover_reports_an_image(image, name):
    content, report = GOOD[name]
    path = image(content)
    assert psu("recover", path) == (0, report, "")
    assert path.read_bytes() == content


@pytest.mark.parametrize("is_second_current", [False, True])
def test_recover_closes_an_older_gate_and_changes_nothing_else(image, is_second_current):
    heads, pool = lay_out([ENABLES])
    current, older = make_root(heads, number=5), make_root(number=4)
    roots = [older, current] if is_second_current else [current, older]
    closed = [it if it is current else b"\0" + it[1:] for it in roots]
    path = image(join_pages(roots, pool))
    report = "image version 2 root 5\npages 2 of 256\nenables 32 128\nrequest 96\nuser 0\nmacros 0\n"
    assert psu("recover", path) == (0, report, "")
    assert path.read_bytes() == join_pages(closed, pool)


def test_a_run_powers_on_with_what_an_image_has(image):
    path = image(make_image(ALL_KINDS))
    lines = b'*STB?;*ESR?\nVOLT?;*PUD?\n*RCL 3;VOLT?;*LMC?\nMMEM:DATA? "A"\n'
    responses = '96;128\n0.000;#17bench 3\n5.250;"SETV","ON"\n#13xyz\n'
    assert psu("run", path, input=lines) == (0, responses, "")


# Bad images


def with_one_item(head, root=None, value=bytes(PAGE)):
    """An image with one item, whose head is page 2 and whose value is page 3."""
    return join_pages([root or make_root([2]), NO_ROOT], head + value)


HEAD = make_head(b"\x03", 3, [3])
NO_ROOTS = {
    "empty": b"",
    "one byte too small": make_image()[: 2 * PAGE - 1],
    "zeros": bytes(SIZE),
    "another file": b"\x7fELF" * (SIZE // 4),
    "both gates closed": join_pages([make_root(gate=0), make_root(gate=0, number=2)], b""),
    "a gate that is not a5": join_pages([make_root(gate=OPEN ^ 1), NO_ROOT], b""),
}
BAD_ROOTS = {
    "two roots with one number": join_pages([make_root(), make_root()], b""),
    "another mark": make_image(mark=b"PSV"),
    "another mark and version": make_image(mark=b"psu", version=9),
    "limit 3": make_image(limit=3),
    "limit 481": make_image(limit=481),
    "too small for the limit": make_image()[:-1],
    "roots alone": make_image()[: 2 * PAGE],
    "a head in the roots": with_one_item(HEAD, make_root([1])),
    "a head after the pool": with_one_item(HEAD, make_root([2 + 2 * LIMIT])) + HEAD,
    "a head twice": with_one_item(HEAD, make_root([2, 2])),
    "a value in the roots": with_one_item(make_head(b"\x03", 3, [0])),
    "a value after the pool": with_one_item(make_head(b"\x03", 3, [2 + 2 * LIMIT])) + bytes(PAGE),
    "a value in a head": with_one_item(make_head(b"\x03", 3, [2])),
    "a page twice in a value": with_one_item(make_head(b"\x05A", 600, [3, 3])),
    "one value of two items": join_pages(
        [make_root([2, 4]), NO_ROOT], HEAD + bytes(PAGE) + make_head(b"\x05A", 3, [3])
    ),
    "an empty key": with_one_item(make_head(b"", 3, [3])),
    "a key of 66 bytes": with_one_item(make_head(b"\x05" + b"n" * 65, 3, [3])),
    "a key of 34 bytes in version 1": with_one_item(make_head(b"\x05" + b"n" * 33, 3, [3]), make_root([2], version=1)),
    "a key twice": make_image([(b"\x03", b"one"), (b"\x03", b"two")]),
    "an empty value": with_one_item(make_head(b"\x03", 0, [])),
    "a value of 33,281 bytes": make_image([(b"\x05A", bytes(33281))]),
    "too few pages": with_one_item(make_head(b"\x05A", 600, [3])),
    "too many pages": with_one_item(make_head(b"\x05A", 512, [3, 4])),
    "a cost over the limit": make_image([(bytes([5, 65 + it]), b"\x00x") for it in range(3)], limit=4),
    "241 items": make_image([(b"\x05%d" % it, b"\x00") for it in range(241)], limit=480),
}
BAD_VERSIONS = {f"version {it}": make_image(version=it) for it in (0, 3, 256, 65535)}
# The version is looked at right after the mark.
BAD_VERSIONS["version 3 and limit 3"] = make_image(version=3, limit=3)
BAD_VERSIONS["version 3, too small for the limit"] = make_image(version=3)[: 2 * PAGE]
BAD_ITEMS = {
    "an unknown key": [(b"\x07", b"\x01")],
    "key 00": [(b"\x00", b"\x01")],
    "a longer key": [(b"\x03\x00", b"x")],
    "enables of one byte": [(b"\x01", b"\x20")],
    "enables of three bytes": [(b"\x01", b"\x20\x80\x00")],
    "SRE with bit 6": [(b"\x01", b"\x60\x80")],
    "no register": [(b"\x02", SETTINGS)],
    "register 100": [(b"\x02\x64", SETTINGS)],
    "settings of *RST": [(b"\x02\x00", RESET)],
    "27 bytes of settings": [(b"\x02\x00", SETTINGS[:-1])],
    "60.001 volts": [(b"\x02\x00", bytes.fromhex("ea61") + SETTINGS[2:])],
    "a flag of settings": [(b"\x02\x00", SETTINGS[:-1] + b"\x04")],
    "64 bytes of user data": [(b"\x03", bytes(64))],
    "a macro without a body": [(b"\x04", b"\x02ON\x00")],
    "one label in two cases": [(b"\x04", b"\x02ON\x00\x01x" + b"\x02on\x00\x01y")],
    "an invalid label": [(b"\x04", b"\x021N\x00\x01x")],
    "a file without a name": [(b"\x05", b"\x00x")],
    "a name with a space": [(b"\x05a b", b"\x00x")],
    "a file of another type": [(b"\x05A", b"\x03x")],
    "settings at power-on 0": [(b"\x06", b"\x00")],
}
REFUSED = [
    *(pytest.param(content, "no root", id=f"no root: {name}") for name, content in NO_ROOTS.items()),
    *(pytest.param(content, "bad root", id=f"bad root: {name}") for name, content in BAD_ROOTS.items()),
    *(pytest.param(content, "bad version", id=f"bad version: {name}") for name, content in BAD_VERSIONS.items()),
    *(pytest.param(make_image(items), "bad items", id=f"bad items: {name}") for name, items in BAD_ITEMS.items()),
]


@pytest.mark.parametrize("content, text", REFUSED)
def test_recover_refuses_an_image(image, content, text):
    path = image(content)
    assert psu("recover", path) == fault(text)
    assert path.read_bytes() == content


@pytest.mark.parametrize("content, text", REFUSED[::7])
def test_run_refuses_an_image_and_reads_nothing(image, content, text):
    path = image(content)
    assert psu("run", path, input=b"*IDN?\n") == fault(text)
    assert path.read_bytes() == content


@pytest.mark.parametrize("content, text", REFUSED[::7])
def test_serve_refuses_an_image(image, content, text):
    path = image(content)
    assert psu("serve", path, "--port", free_port()) == fault(text)
    assert path.read_bytes() == content
