"""Shared by the tests: the program, rows, folders, branches, programs in C, editors and browsers."""
