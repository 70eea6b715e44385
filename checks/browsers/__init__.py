"""The page in a browser. Called by checks/browser.py."""
