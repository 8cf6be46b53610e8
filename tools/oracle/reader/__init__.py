"""The meaning of plans, scripts, answers and event files, from their bytes to the lines of the program."""
