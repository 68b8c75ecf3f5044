"""The command: each module has some of its verbs."""
