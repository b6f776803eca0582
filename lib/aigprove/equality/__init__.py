"""Compares two files: builds their miter, matches their signals, and finds nodes that are always
equal."""
