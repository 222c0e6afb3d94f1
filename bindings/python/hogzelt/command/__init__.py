"""The command `hogzelt`."""
