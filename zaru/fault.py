"""Faults of the script itself."""


class Fault(Exception):
    """Two ways that must agree do not: what the script would tell cannot be relied on. In one line."""
