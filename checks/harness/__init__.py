"""What the checks are made with: the protocol and its commands, runs of a program, servers, clients, random scripts and comparisons. It checks nothing."""
