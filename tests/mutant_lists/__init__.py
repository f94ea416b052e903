"""The mutants of tests/mutants.py, a file for each kind.

To renew a mutant whose text has changed, run `python3 -m tests.mutants --list`: it prints each text
that does not occur exactly once, and each test that does not exist. Copy a short text from the new
version of the file into `old`, make the same mistake in `new`, and run `python3 -m tests.mutants -k
WORD` with a word of its title: it must be noticed by the test that the list names.
"""
