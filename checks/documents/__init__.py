"""Sessions, tables and commands of README.md and docs/, as the programs answer them. Called by checks/program.py and checks/readme.py."""
