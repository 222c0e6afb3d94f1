"""Tests that need the library, the command among them. Run from the top of the repository:

    python3 -B -m unittest discover -q -s tools/tests/library -t tools/tests
"""

import os

import samples

samples.find_package()

from hogzelt.library import find

os.environ["HOGZELT_SO"] = find()  # one for all tests, also those that start processes
