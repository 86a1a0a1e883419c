"""Tests of the programs in Rust by themselves."""
