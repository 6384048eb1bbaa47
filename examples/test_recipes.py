"""Runs the Python blocks of the programmer's guide, "Recipes for tests", as they stand there.

Needs pytest, the program `psu` (conftest.py says where it is looked for) and the guide; the disk that fails also needs
a C compiler: python3 -m pytest test_recipes.py
Prints what pytest prints: one dot a test.
"""
import os
import re
import shutil
import subprocess

import pytest

FOLDER = os.path.dirname(os.path.abspath(__file__))
# In a clone, and where the Debian package is installed.
GUIDES = (
    os.path.join(FOLDER, "..", "crates", "psu_guide", "data", "COMMANDS.md"),
    "/usr/share/doc/psu/docs/COMMANDS.md",
)


def recipes_of(path):
    """Returns the Python of the chapter, each line at its place in the guide, so that a failure names it."""
    with open(path, encoding="utf-8") as it:
        text = it.read()
    begin = text.index("\n## Recipes for tests\n")
    chapter = text[begin : text.index("\n## ", begin + 1)]
    before = text[:begin].count("\n")
    lines = [""] * (before + chapter.count("\n") + 1)
    for block in re.finditer(r"```python\n(.*?)```", chapter, re.DOTALL):
        first = before + chapter[: block.start(1)].count("\n")
        for number, line in enumerate(block.group(1).splitlines()):
            lines[first + number] = line
    return "\n".join(lines) + "\n"


@pytest.fixture
def failing_disk(tmp_path):
    """The library that makes syncs fail, compiled."""
    compiler = shutil.which("cc") or shutil.which("gcc")
    if compiler is None:
        pytest.skip("there is no C compiler")
    library = str(tmp_path / "failing_disk.so")
    subprocess.run([compiler, "-shared", "-fPIC", "-o", library, os.path.join(FOLDER, "failing_disk.c")], check=True)
    return library


GUIDE = next((it for it in GUIDES if os.path.exists(it)), None)
if GUIDE is None:
    pytest.skip("the guide is not installed", allow_module_level=True)
exec(compile(recipes_of(GUIDE), os.path.normpath(GUIDE), "exec"))


def test_the_guide_has_its_recipes():
    assert sum(name.startswith("test_") for name in globals()) >= 10
