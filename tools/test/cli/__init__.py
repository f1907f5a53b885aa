"""The cases of tools/test/cli.py that need more than a table: a module for each table, and what they share."""
