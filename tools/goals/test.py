#!/usr/bin/env python3
"""Runs the tests of `svtv-goals`: test.py [WORD..], where words choose tests by unittest's names for them, as tests.test_text.

SVTV names the program that is compared with; else it is the one that ./svtv has built. GNU parallel has to be installed. The tests on other
machines need an ssh server that can be started on the loopback address, and are passed over where there is none.
"""

import sys
import unittest
from pathlib import Path

HERE = Path(__file__).resolve().parent
sys.path.insert(0, str(HERE.parent))
sys.path.remove(str(HERE))

if __name__ == "__main__":
    words = sys.argv[1:]
    loader = unittest.TestLoader()
    tests = loader.loadTestsFromNames([f"goals.{word}" for word in words]) if words else loader.discover(str(HERE / "tests"), top_level_dir=str(HERE.parent))
    sys.exit(not unittest.TextTestRunner(verbosity=2).run(tests).wasSuccessful())
