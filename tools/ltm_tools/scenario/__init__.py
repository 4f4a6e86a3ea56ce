"""A case that is edited: its edits, what they make of its rows, and the session of the program that shows it."""
