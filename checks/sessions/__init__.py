"""A plain session of mountd, from its input to its end. Called by checks/program.py."""
