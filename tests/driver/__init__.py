"""What all tests share: rows and how they are run, records, the program, its feed, links, and the helpers in C."""
