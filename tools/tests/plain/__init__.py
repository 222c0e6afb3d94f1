"""Tests that need no library. Run from the top of the repository:

    python3 -B -m unittest discover -q -s tools/tests/plain -t tools/tests
"""

import samples

samples.find_package()
