"""Tests of how tools/build plans the proofs of the program's crates."""
import importlib.machinery
import importlib.util
import os
import sys
import unittest

TOP = os.path.dirname(os.path.dirname(os.path.dirname(os.path.abspath(__file__))))


def tool():
    """The script as a module, without a file of its compiled code beside it."""
    loader = importlib.machinery.SourceFileLoader("tools_build", os.path.join(TOP, "tools", "build"))
    module = importlib.util.module_from_spec(importlib.util.spec_from_loader(loader.name, loader))
    sys.modules[loader.name], sys.dont_write_bytecode = module, True
    loader.exec_module(module)
    return module


@unittest.skipUnless(os.path.exists(os.path.join(TOP, "tools", "build")), "not in a clone")
class Plans(unittest.TestCase):
    def setUp(self):
        written = sys.dont_write_bytecode
        self.addCleanup(setattr, sys, "dont_write_bytecode", written)
        self.build = tool()

    def crates(self, **given):
        """Crates by their names: the seconds of each, and the crates below it."""
        found = {name: self.build.Crate(name, name, below, seconds) for name, (seconds, *below) in given.items()}
        for crate in found.values():
            crate.chain = self.build.chain_from(crate, found)
        return found

    def test_the_longest_chain_comes_first(self):
        crates = self.crates(low=(10,), long=(50,), high=(100, "low"))
        plan = self.build.Plan(crates, 1)
        begun = []
        while not plan.has_all():
            crate, jobs = plan.next()
            self.assertEqual(jobs, 1)
            self.assertIsNone(plan.next())
            begun.append(crate.name)
            plan.end(crate.name)
        self.assertEqual(begun, ["low", "high", "long"])

    def test_a_crate_waits_for_those_below_it_and_the_last_gets_all_processors(self):
        crates = self.crates(one=(10,), two=(10,), top=(10, "one", "two"))
        plan = self.build.Plan(crates, 4)
        self.assertEqual([plan.next()[1], plan.next()[1]], [2, 2])
        self.assertIsNone(plan.next())
        plan.end("one")
        self.assertIsNone(plan.next())
        plan.end("two")
        self.assertEqual((plan.next()[1], plan.free), (4, 0))

    def test_the_moments_that_are_foreseen(self):
        crates = self.crates(one=(100,), two=(60,), top=(40, "one"))
        self.assertEqual(self.build.foreseen(crates, 1), {"one": 100, "two": 160, "top": 200})
        # Two processes take 0.675 of the time of one.
        self.assertEqual(self.build.foreseen(crates, 2), {"two": 60, "one": 100, "top": 127})

    def test_the_crates_of_the_program(self):
        crates = self.build.crates_of("psu")
        self.assertIn("psu_disk", crates)
        self.assertNotIn("psu_store_tests", crates)
        below = [it.name for it in self.build.all_below(crates["psu_items"], crates)]
        self.assertEqual(sorted(below), ["psu_disk", "psu_map", "psu_pages"])
        self.assertGreater(crates["psu_disk"].chain, crates["psu_items"].chain)


if __name__ == "__main__":
    unittest.main()
