"""Makes plans, scripts, answers and event files by a seed, and changes them."""
