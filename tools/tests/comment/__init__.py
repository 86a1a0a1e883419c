"""Tests of h2audit-comment."""
