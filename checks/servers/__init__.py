"""A server on a socket. Called by checks/server.py."""
