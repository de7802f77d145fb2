"""What the tools share: the program and its texts, files and what was read of them, trees, and drawings."""
