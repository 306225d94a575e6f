"""The commands, a module each. Of each `words` tells an argparse parser the words that it takes, and `main` does it and answers the
status (wadrelwy/statuses.py); its docstring is what `--help` says. What is refused is raised as a Fault."""
