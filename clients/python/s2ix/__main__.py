"""Shows a short session: each line as it would be typed, and what it answers. With --help it prints the page FROM_PYTHON.md, which a
package has beside this file, as it has FORMATS.md."""
import os
import sys

from s2ix import Index, S2ixError, token_of

SESSION = """
index.add_union(["04", "0c"], 9)
index.add("04", 3)
index.meet("04")
index.at("0400000000000001")
index.revert(1)
index.labels("1")
index.undo()
[token_of(cell) for cell in index.region(9)]
index.remove("0c", 3)
"""


def show_session() -> None:
    with Index() as index:
        for line in SESSION.strip().splitlines():
            print(f">>> {line}")
            try:
                print(eval(line, {"index": index, "token_of": token_of}))
            except S2ixError as refusal:
                print(f"{type(refusal).__name__}: {refusal}")


def page() -> str:
    here = os.path.dirname(os.path.realpath(__file__))
    beside = os.path.join(here, "FROM_PYTHON.md")
    # (the repository has the page among its docs)
    path = beside if os.path.exists(beside) else os.path.join(here, "..", "..", "..", "docs", "FROM_PYTHON.md")
    with open(path, encoding="utf-8") as file:
        return file.read()


def main() -> int:
    words = sys.argv[1:]
    if not words:
        show_session()
    elif words in (["-h"], ["--help"]):
        sys.stdout.buffer.write(page().encode())
    else:
        print("usage: python3 -m s2ix [--help], for a session, or for the page FROM_PYTHON.md", file=sys.stderr)
        return 2
    return 0


if __name__ == "__main__":
    sys.exit(main())
