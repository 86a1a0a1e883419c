"""Tests of the definitions, of what contracts do not say of h2audit and h2audit-split, and of what they cost."""
