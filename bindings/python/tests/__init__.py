"""The tests. They import what they share by its name alone, whether or not they are started as this package."""

import pathlib
import sys

sys.path.insert(0, str(pathlib.Path(__file__).resolve().parent))
