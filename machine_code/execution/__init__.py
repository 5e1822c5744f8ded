"""Trusted: symbolic execution of machine code."""
