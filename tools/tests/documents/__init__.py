"""Tests of documents, words, sources, packages and measurements."""
