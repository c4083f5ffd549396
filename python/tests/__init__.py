"""Tests of the package: `python3 -m unittest` in python/. What needs the program is left out where there is none."""
