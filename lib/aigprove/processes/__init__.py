"""Starts programs, and handles their turns, limits and files."""
