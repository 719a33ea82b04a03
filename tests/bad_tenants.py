"""Tenants lines that are refused, each with the rule that it breaks, for tests/programs and tests/server."""
import pathlib

FOLDER = pathlib.Path(__file__).resolve().parent
LONGEST_LINE = 65_536


def lines_of_the_file():
    """Those of bad_tenants.txt: behind `# NAME` and `#: RULE` each."""
    name = rule = None
    for line in (FOLDER / "bad_tenants.txt").read_bytes().splitlines():
        if line.startswith(b"#:"):
            rule = line[2:].strip().decode()
        elif line.startswith(b"#"):
            name = line[1:].strip().decode()
        else:
            yield name, rule, line + b"\n"


def bad_tenants(tenants):
    """Names, the rules that are broken, and lines; `tenants` is a line that is right."""
    yield "no input", "it is no JSON at line 1, column 0", b""
    padded = tenants.rstrip(b"\n").ljust(LONGEST_LINE + 1)
    too_long = f"it has more than {LONGEST_LINE} bytes"
    yield "a tenants line of 65,537 bytes", too_long, padded + b"\n"
    yield "a tenants line of 65,537 bytes without a feed", too_long, padded
    yield from lines_of_the_file()
