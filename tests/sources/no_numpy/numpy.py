"""Stands before NumPy in the path, so that it is as if NumPy weren't there."""

raise ImportError("no NumPy here")
