"""Tests of the Python module. tests/python of the repository runs them; `python3 -m unittest` in library/python too."""
