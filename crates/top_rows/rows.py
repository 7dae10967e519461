#!/usr/bin/env python3
"""Makes the rows in stdin and what is to be said of them in stdout, behind a line for each script in data. Run it in
crates/top_rows: `./rows.py` writes both files, and `./rows.py check` compares them.

Nothing of the repository's code or definitions is used. lives.py has the lives of a member, runs.py the other runs, audits.py the
audits of trails. What is to be said is written there by hand, row by row.
"""
import pathlib, sys

sys.dont_write_bytecode = True
import page

# Each adds its rows.
import lives, runs, audits


# The scripts whose files are wrong on purpose, and what is said of them.
WRONG = {
    "wrong-status": "status 0, wanted 5",
    "wrong-transcript": "differs at line 3",
}


def scripts():
    """What is to be said of the scripts in data, in the order of their names."""
    names = sorted(path.stem for path in pathlib.Path("data").glob("*.smart"))
    return [f"{name} {WRONG.get(name, 'ok')}" for name in names]


def main():
    for name, lines in (("stdin", page.STDIN), ("stdout", scripts() + page.STDOUT)):
        made = "\n".join(lines) + "\n"
        path = pathlib.Path(name)
        if sys.argv[1:] == ["check"]:
            if path.read_text() != made:
                sys.exit(f"{name}: not as rows.py makes it")
        else:
            path.write_text(made)


main()
