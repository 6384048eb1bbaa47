"""Tests that README.md and CALLS.md say what the package has: calls are made from the docstrings, exceptions are all there."""
import os
import re
import unittest

import api_page
import psu
from psu.errors import HislipError


@unittest.skipUnless(os.path.exists(api_page.README), "the page is not beside the package")
class Readme(unittest.TestCase):
    def setUp(self):
        with open(api_page.README, encoding="utf-8") as file:
            self.text = file.read()

    def test_the_calls_are_those_of_the_package(self):
        with open(api_page.CALLS, encoding="utf-8") as file:
            self.assertEqual(api_page.page(), file.read(), "run python/tests/api_page.py")

    def test_it_has_every_exception(self):
        classes = {name for name in psu.__all__ if isinstance(getattr(psu, name), type)}
        named = {name for name in classes if issubclass(getattr(psu, name), Exception)} - {"HislipError"}
        table = self.text[self.text.index("| exception |"):].split("\n\n")[0]
        rows = set(re.findall(r"`([A-Z]\w+)`", " ".join(it.split("|")[1] for it in table.splitlines()[2:])))
        self.assertEqual(rows, named)
        of_the_client = {it for it in named if issubclass(getattr(psu, it), HislipError)}
        self.assertEqual(named - of_the_client, {"ServerNotStarted"})

    def test_its_python_is_valid(self):
        for block in re.findall(r"^```python\n(.*?)^```", self.text, re.MULTILINE | re.DOTALL):
            compile(block, "README.md", "exec")


if __name__ == "__main__":
    unittest.main()
