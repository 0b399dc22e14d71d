"""What the scripts that compare tables of the tests with other programs have in common."""
import ast
import sys


def compare(things, rows):
    """Prints each row whose two answers differ, and how many there were.

    A row is its place and source, what the table has, and what was found. Returns the exit status.
    """
    compared = wrong = 0
    for row, wanted, found in rows:
        compared += 1
        if found != wanted:
            wrong += 1
            print("%s\n  table %s\n  found %s" % (row, wanted, found))
    print("%d %s compared, %d differ" % (compared, things, wrong))
    return 1 if wrong else 0


def exit_by_ast(main):
    """Ends the program with the status of `main`, which reads trees of CPython, or says that it is skipped."""
    if not hasattr(ast, "unparse"):
        print("skipped: this python3 has no ast of version 3.9 or later")
        sys.exit(0)
    sys.exit(main())
