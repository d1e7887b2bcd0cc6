"""Tests of the package: `python3 -m unittest` in the folder python. The library is found as the package finds it."""
