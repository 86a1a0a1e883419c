"""Tests of h2audit-fleet, and of h2audit-merge."""
