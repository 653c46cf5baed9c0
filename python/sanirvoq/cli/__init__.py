"""The command line and its prompt."""
