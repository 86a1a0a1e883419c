"""Tests of the programs that are proved: `python3 -m tests.NAME PROGRAM..`, from the top of the repository."""
