"""Trusted: the semantics of instructions, and calling conventions."""
