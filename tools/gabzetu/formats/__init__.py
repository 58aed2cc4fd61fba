"""Readers of the formats of docs/FORMATS.md, for all commands."""
