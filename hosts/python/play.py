"""Plays a list of calls from standard input through one lent layout.

Prints the answer lines. Both formats are in tests/README.md.
"""

import struct
import sys
from array import array
from typing import Callable, Dict, Iterator, List, Optional, Sequence, Tuple

import rostulanda
from rostulanda import PLACES, Fields, Layout

#: Bytes in a record; a chart or graph6 is padded to a multiple of it.
RECORD = 32

#: The longest buffers that a list can lend: for an order, and for a chart or graph6;
#: and the longest table, for the crossings of every edge.
LONGEST_ORDER = 255
LONGEST_WRITTEN = 8192
LONGEST_TABLE = 2100


class CallsEnd(Exception):
    """Nothing behind this is played."""


def numbers(values: List[int]) -> str:
    """Each number with a space before it."""
    return "".join([f" {value}" for value in values])


def changed(now: Sequence[int], before: Sequence[int]) -> Iterator[Tuple[int, int]]:
    """The number and the value of each entry that differs from the one before."""
    # Most lines change nothing: that is quicker to tell of all entries at once.
    entries = enumerate(zip(now, before)) if now != before else ()
    return ((i, entry) for i, (entry, former) in entries if entry != former)


def layout_text(now: Fields, before: Fields) -> str:
    """The layout, with the adjacency words and weights that differ from those before."""
    words = "".join(f" {v} {word}" for v, word in changed(now.adjacency[:], before.adjacency[:]))
    entries = changed(bytes(now.weights), bytes(before.weights))
    weights = "".join(f" {i // PLACES} {i % PLACES} {weight}" for i, weight in entries)
    return f" n {now.n} order{numbers(now.order[:])} count {now.count} words{words} weights{weights}\n"


def first_crossing(layout: Layout) -> str:
    pair = layout.first_crossing()
    if pair is None:
        return " none"
    return " pair" + numbers([end for edge in pair for end in edge])


def converge(layout: Layout, limit: int) -> str:
    run = layout.converge(min(limit, 2**32 - 1))
    return f" {run.reduction} {run.rounds} {'yes' if run.converged else 'no'} {run.optima}"


def answered(name: str, when_refused: str, call: Callable[[], Optional[str]]) -> str:
    """The name, the refusal code, and the answers of an accepted or of a refused call."""
    try:
        return f"{name} 0{call() or ''}"
    except rostulanda.Refused as refused:
        return f"{name} {refused.code}{when_refused}"


def filled(length: int, longest: int, fill: int) -> bytearray:
    """A buffer to be lent."""
    return bytearray([fill % 256]) * min(length, longest)


def order(layout: Layout, length: int, fill: int) -> str:
    buffer = filled(length, LONGEST_ORDER, fill)
    told = answered("order", "", lambda: layout.write_order(buffer))
    return f"{told} buffer{numbers(list(buffer))}"


def written(name: str, write: Callable[[bytearray], int], length: int, fill: int) -> str:
    """A call that writes a chart or graph6."""
    buffer = filled(length, LONGEST_WRITTEN, fill)
    told = answered(name, " 0", lambda: f" {write(buffer)}")
    return f"{told} buffer{numbers(list(buffer))}"


def edge_crossings(layout: Layout, length: int, fill: int) -> str:
    table = array("Q", [fill]) * min(length, LONGEST_TABLE)
    told = answered("perlink", " 0", lambda: f" {layout.write_edge_crossings(table)}")
    return f"{told} table{numbers(list(table))}"


#: What each op but the starts and link plays, with the numbers a and b.
OPS: Dict[int, Callable[[Layout, int, int], str]] = {
    16: lambda l, a, b: answered("add", " 0", lambda: f" {l.add_vertex()}"),
    18: lambda l, a, b: answered("unlink", "", lambda: l.remove_edge(a, b)),
    19: lambda l, a, b: answered("move", "", lambda: l.move_after(a, b)),
    20: lambda l, a, b: answered("lay", " 0", lambda: f" {l.greedy_append(a)}"),
    21: lambda l, a, b: answered("sift", " 0 0", lambda: numbers(list(l.sift(a)))),
    22: lambda l, a, b: answered("round", " 0 0 0", lambda: numbers(list(l.sifting_round()))),
    23: lambda l, a, b: answered("settle", " 0 0 no 0", lambda: converge(l, a)),
    24: lambda l, a, b: answered("count", " 0", lambda: f" {l.count()}"),
    25: order,
    26: lambda l, a, b: answered("pair", " refused", lambda: first_crossing(l)),
    27: lambda l, a, b: written("write", l.write_chart, a, b),
    29: lambda l, a, b: written("export", l.export_graph6, a, b),
    30: edge_crossings,
}


class Player:
    """A list, how far it is played, and the layout."""

    def __init__(self, list_of_calls: bytes) -> None:
        self.list = list_of_calls
        self.at = 0
        self.layout = Layout()

    def take(self, length: int) -> bytes:
        """The next bytes, padded to whole records, if all are there."""
        padded = -(-length // RECORD) * RECORD
        if padded > len(self.list) - self.at:
            raise CallsEnd
        taken = self.list[self.at : self.at + length]
        self.at += padded
        return taken

    def set_field(self, op: int, a: int, b: int, c: int) -> bool:
        """Sets one field, if that is what the record asks for."""
        fields = self.layout.fields
        if op == 2:
            fields.n = a
        elif op == 3 and a < PLACES:
            fields.order[a] = b % 256
        elif op == 4 and a < PLACES:
            fields.adjacency[a] = b
        elif op == 5:
            fields.count = a
        elif op == 6 and a < PLACES and b < PLACES:
            fields.weights[PLACES * a + b] = c % 256
        return 2 <= op <= 6

    def answer(self, op: int, a: int, b: int, c: int) -> str:
        """Plays one record that answers: its name, refusal code and answers."""
        if op in OPS:
            return OPS[op](self.layout, a, b)
        if op == 17:
            return answered("link", "", lambda: self.layout.add_edge(a, b, c % 256))
        if op == 0:
            self.layout = Layout()
            return "empty 0"
        if op == 1:
            return self.start("chart", Layout.read_chart, a)
        if op == 28:
            return self.start("import", Layout.import_graph6, a)
        raise CallsEnd

    def start(self, name: str, read: Callable[[Layout, bytes], None], length: int) -> str:
        """Starts from a chart or graph6, and from the empty layout if that is refused."""
        given = self.take(length)
        self.layout = Layout()
        return answered(name, "", lambda: read(self.layout, given))

    def lines(self) -> Iterator[str]:
        """All answer lines."""
        while self.at < len(self.list):
            before = self.layout.copy()
            try:
                record = struct.unpack("<4Q", self.take(RECORD))
                if self.set_field(*record):
                    continue
                told = self.answer(*record)
            except CallsEnd:
                yield "end\n"
                return
            yield told + layout_text(self.layout.fields, before.fields)


def main() -> None:
    sys.stdout.writelines(Player(sys.stdin.buffer.read()).lines())


if __name__ == "__main__":
    main()
