"""The language in Python: slow, with no state that is carried along, and proved nowhere. Tests hold the program to it; tools read by it."""
