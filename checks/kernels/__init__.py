"""The rules beside the running kernel. Called by checks/kernel.py."""
