"""The rows and what is to be said of them, line by line."""

STDIN, STDOUT = [], []


def row(line, *said):
    """A row that is repeated, and what is said behind it."""
    STDIN.append(line)
    STDOUT.extend([f"$ {line}", *said])


def long_row(line, *said):
    """A row that is not repeated."""
    STDIN.append(line)
    STDOUT.extend(said)


def remark(what):
    row(f"# {what}")
