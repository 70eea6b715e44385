"""mountctl and the client in Python, at a server and at doors that answer in its place. Called by checks/server.py."""
