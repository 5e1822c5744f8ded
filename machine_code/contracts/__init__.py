"""Trusted: the contracts, which say what is proved of each function."""
