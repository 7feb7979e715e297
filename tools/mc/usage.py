"""Reads the words of a tool: where they are wrong, it says why, with the tool's first line, and ends with status 2."""
import argparse
import sys


class Parser(argparse.ArgumentParser):
    """A parser of the words of a tool, whose usage text is `text`. `-h` and `--help` print that."""

    def __init__(self, name, text):
        super().__init__(prog=f"mc {name}", add_help=False, allow_abbrev=False)
        self.text = text.strip()

    def parse(self, arguments):
        if "-h" in arguments or "--help" in arguments:
            print(self.text)
            sys.exit(0)
        return self.parse_args(arguments)

    def error(self, message):
        print(f"{self.prog}: {message}\n{self.text.partition(chr(10))[0]}", file=sys.stderr)
        sys.exit(2)
