"""The tools, a module for each: its docstring is the help, `main` runs it by the words of the command line."""
