"""The definitions and the code of the crates. Called by checks/words.py."""
