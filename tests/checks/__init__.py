"""The checks that tests/run.py runs by name, one file a check, each with a function `run`."""
