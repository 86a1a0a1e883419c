"""Tests of h2audit-page and h2audit-plot, and of the report as they read it."""
