"""Second programs: what the program must do, written again in Python from the documents alone."""
