"""Prints two rows of a chart.

Reads a chart from the file named, or from standard input, and prints its row as
the program ringlist does, with its limit. Then adds a vertex, joins it to
vertex 0, and prints the row of the layout that this leads to, without a limit:
as many rounds may be run as are known to be enough. Status 1: refused. Status 2:
what cannot be read or written, told on standard error.
"""

import os
import sys
from typing import Tuple

import rostulanda

#: One byte more than a chart may have, to tell that it is too long.
READ_BYTES = 8193


def read(name: str) -> bytes:
    """The bytes of a file, or of standard input where the name is empty."""
    if name:
        with open(name, "rb") as file:
            return file.read(READ_BYTES)
    if sys.stdin is None:
        raise OSError("it is closed")
    return sys.stdin.buffer.read(READ_BYTES)


def write(text: str) -> None:
    """Writes all of it to standard output."""
    if sys.stdout is None:
        raise OSError("it is closed")
    try:
        sys.stdout.write(text)
        sys.stdout.flush()
    except OSError:
        # What is still held would be written, and fail, once more at the end.
        os.dup2(os.open(os.devnull, os.O_WRONLY), sys.stdout.fileno())
        raise


def rows(chart: bytes) -> Tuple[str, int]:
    """What is printed, and the status of the program."""
    text = ""
    try:
        layout = rostulanda.Layout.from_chart(chart)
        text += f"{layout.row(rostulanda.LIMIT)}\n\n"
        added = layout.add_vertex()
        if added != 0:
            layout.add_edge(added, 0)
        return f"{text}{layout.row()}\n", 0
    except rostulanda.Refused as refused:
        print(refused, file=sys.stderr)
        return f"{text}refused {refused.code}\n", 1


def failed(name: str, error: OSError) -> int:
    """Says what could not be read or written; the status of the program."""
    print(f"{name}: {error.strerror or error}", file=sys.stderr)
    return 2


def main() -> int:
    name = sys.argv[1] if len(sys.argv) > 1 else ""
    try:
        chart = read(name)
    except OSError as error:
        return failed(name or "standard input", error)
    text, status = rows(chart)
    try:
        write(text)
    except OSError as error:
        return failed("standard output", error)
    return status


if __name__ == "__main__":
    sys.exit(main())
