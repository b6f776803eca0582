"""Circuits in AIGER format: reads, simulates, normalises and writes them, their witnesses and their
certificates."""
