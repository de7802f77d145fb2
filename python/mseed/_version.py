"""The version, which is that of the program: what the file VERSION says at the top of the repository."""

__version__ = "0.1.0"
