"""An independent reader of plans, scripts, answers and event files, written from docs/ alone, and a maker of cases to compare the program with it."""
