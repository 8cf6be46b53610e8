"""Commands of `python3 -m camac`: each file has one, with its words and what it prints."""
