"""Loaders of file formats. An error here could make the tool prove other code than that of the file
(README.md)."""
