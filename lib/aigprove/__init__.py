"""Answers of model checkers, kept apart from what checks them: the package of bin/aigprove and
examples/waves.py."""
VERSION = "1.0.0"
