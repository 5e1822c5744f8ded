"""Trusted: the queries to z3, and to a second solver."""
