"""The proof of the program: its order and its work."""
