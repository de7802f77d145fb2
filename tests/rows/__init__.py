"""The tests: each file has a function `rows` that yields what is to be judged. See tests/run.py."""
