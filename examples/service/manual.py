#!/usr/bin/env python3
"""Makes a page of the manual of what a program says of itself.

usage: examples/service/manual.py NAME SECTION WHAT < TEXT > PAGE

TEXT is what the program tells with --help, which stands in the page as it is; WHAT is one line.
"""
import sys


def page(name: str, section: str, what: str, text: str) -> str:
    """The page, in the language of man."""
    lines = [line.replace("\\", "\\e").replace("-", "\\-") for line in text.splitlines()]
    # a line that begins so would be a command
    told = [f"\\&{line}" if line[:1] in (".", "'") else line for line in lines]
    head = [f'.TH {name.upper()} {section} "" "Romburik"', ".SH NAME", f"{name} \\- {what}"]
    return "\n".join([*head, ".SH DESCRIPTION", ".nf", *told, ".fi", ""])


if __name__ == "__main__":
    _, called, place, said = sys.argv
    sys.stdout.write(page(called, place, said, sys.stdin.read()))
