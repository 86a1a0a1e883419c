"""Tests of h2audit-import and h2audit-any."""
