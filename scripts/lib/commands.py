"""Parses the arguments of commands. A command checks; with `--write` it writes what it checks. An unknown argument ends it."""

import argparse


def parser_of(document: str) -> argparse.ArgumentParser:
    """A parser of arguments whose help is the document of a command as it is written."""
    return argparse.ArgumentParser(description=document, formatter_class=argparse.RawDescriptionHelpFormatter, allow_abbrev=False)


def wants_writing(document: str) -> bool:
    """Whether a command is given `--write`, its only argument."""
    parser = parser_of(document)
    parser.add_argument("--write", action="store_true", help="write what differs")
    return parser.parse_args().write
