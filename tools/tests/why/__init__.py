"""Tests of h2audit-why."""
