"""Tests of what stands around the core: `python3 -m tools.tests.NAME`, from the top of the repository."""
