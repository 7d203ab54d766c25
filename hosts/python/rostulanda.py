"""Circular layouts with few crossings, proved.

Vertices stand round a circle and edges are chords. Any graph of up to 64
vertices goes in, as a networkx graph or as its edges:

    row = rostulanda.layout(G)
    row.order, row.after, row.converged

A Layout is held here and lent to each call of the proved library, which changes
it in place. A refused call leaves it as it was and raises Refused.

Each edge has a weight, a whole number from 1 to 255, which is 1 where none is
given, and a crossing counts the product of its two edges' weights (document 02,
Note 8): wherever crossings are counted or compared, it is by the sum of these
products.

The words are those of graph drawing; document 01's stand beside them once.

The shared library is librostulanda.so: the file that RL_SHARED_LIBRARY names,
or the one beside this file, or the one in target/staticlib of the repository,
which ./build library makes.
"""

import ctypes
import enum
import operator
import os
from array import array
from collections.abc import Mapping, Set
from ctypes import c_bool, c_char_p, c_size_t, c_uint8, c_uint32, c_uint64
from pathlib import Path
from typing import (
    Any,
    Callable,
    Dict,
    Hashable,
    Iterable,
    List,
    NamedTuple,
    Optional,
    Protocol,
    Sequence,
    Tuple,
    TypeVar,
    Union,
)

#: The most vertices, and the places of an order.
PLACES = 64

#: The most bytes that a written chart has.
WRITTEN_CHART_BYTES = 6125

#: The most bytes that a graph6 has.
GRAPH6_BYTES = 340

#: The most edges.
MOST_EDGES = 2016

#: The least buffer that a listing needs.
LISTING_BYTES = 1024

#: The numbers of each call of a list: which it is, and what it names.
CALL_NUMBERS = 4

#: The numbers of each answer of a list of calls: the refusal code, and four more.
ANSWER_NUMBERS = 5

#: The largest limit of sifting rounds.
MOST_ROUNDS = 1000

#: The limit that the program ringlist takes.
LIMIT = 50

#: The most characters that a message shows of something that was given.
_SHOWN = 80

Edge = Tuple[int, int]

#: An edge as it is given: its two ends, and perhaps its weight.
GivenEdge = Union[Tuple[Hashable, Hashable], Tuple[Hashable, Hashable, int]]

#: A buffer or a table.
_Lent = TypeVar("_Lent", bytearray, "array[int]")


class Refusal(enum.IntEnum):
    """Why a call was refused (document 01: the numbers of the questions)."""

    CHART_TOO_LONG = 1
    CHART_FIELDS = 2
    CHART_TAGS = 3
    CHART_VERTICES = 4
    CHART_ODD_EDGES = 5
    CHART_EDGE_ENDS = 6
    CHART_EDGE_TWICE = 7
    CHART_ORDER = 8
    INVALID_LAYOUT = 11
    NO_SUCH_VERTEX = 12
    SAME_VERTEX = 13
    EDGE_IS_THERE = 14
    NO_SUCH_EDGE = 15
    NO_ROOM = 16
    LIMIT_OUT_OF_RANGE = 17
    BUFFER_TOO_SHORT = 18
    WRITE_BUFFER_TOO_SHORT = 19
    GRAPH6_SIZE = 20
    GRAPH6_DATA = 21
    GRAPH6_PADDING = 22
    TABLE_TOO_SHORT = 23
    CHART_WEIGHTS = 24
    WEIGHT_OUT_OF_RANGE = 25
    GRAPH6_WEIGHTS = 26


#: The question that each refusal answers "no".
QUESTIONS: Dict[int, str] = {
    Refusal.CHART_TOO_LONG: "is the chart at most 8,192 bytes long?",
    Refusal.CHART_FIELDS: "does the chart divide exactly into fields, each header and body complete?",
    Refusal.CHART_TAGS: "are the tags 44, 4C, 52, or 44, 4C, 52, 57, each once, in that sequence?",
    Refusal.CHART_VERTICES: "is the body of field 44 one byte, at most 64?",
    Refusal.CHART_ODD_EDGES: "has the body of field 4C an even length?",
    Refusal.CHART_EDGE_ENDS: "are the ends of each edge below n and different?",
    Refusal.CHART_EDGE_TWICE: "is each edge written only once, either way round?",
    Refusal.CHART_ORDER: "has the body of field 52 n bytes, holding each vertex once?",
    Refusal.INVALID_LAYOUT: "is the layout valid?",
    Refusal.NO_SUCH_VERTEX: "is each named vertex below n?",
    Refusal.SAME_VERTEX: "do the two vertices differ?",
    Refusal.EDGE_IS_THERE: "is there no edge between the two vertices yet?",
    Refusal.NO_SUCH_EDGE: "is there an edge between the two vertices?",
    Refusal.NO_ROOM: "is there room for another (there are 64 vertices already)?",
    Refusal.LIMIT_OUT_OF_RANGE: "is the limit from 1 to 1000?",
    Refusal.BUFFER_TOO_SHORT: "is the lent buffer long enough?",
    Refusal.WRITE_BUFFER_TOO_SHORT: "has the buffer as many bytes as are written?",
    Refusal.GRAPH6_SIZE: "does the graph6 start with a size from 0 to 64, in its shortest form?",
    Refusal.GRAPH6_DATA: "has the graph6 as many bytes as its size asks for, each from 63 to 126?",
    Refusal.GRAPH6_PADDING: "are the padding bits of the graph6 all 0?",
    Refusal.TABLE_TOO_SHORT: "has the table an entry for each edge?",
    Refusal.CHART_WEIGHTS: "has the body of field 57 one byte for each edge?",
    Refusal.WEIGHT_OUT_OF_RANGE: "is each weight a whole number from 1 to 255?",
    Refusal.GRAPH6_WEIGHTS: "does each edge weigh 1 (a graph6 has no weights)?",
}


class Refused(ValueError):
    """A refused call: its code, and the question that was answered "no"."""

    def __init__(self, code: int, detail: str = "") -> None:
        self.code = int(code)
        self.question = QUESTIONS.get(code, "unknown")
        super().__init__(f"refused with {self.code}: {self.question} No.{detail and ' ' + detail}")


# ---- the library -------------------------------------------------------------


class Fields(ctypes.Structure):
    """The fields of a layout as the library holds them.

    They may hold anything at all: a layout that is not valid is refused by
    every call. The first n places of the order hold the vertices clockwise, the
    others 0; bit w of adjacency word v (document 01: neighbour word) is set
    exactly when an edge joins v and w; entry 64 · v + w of the weights is the
    weight of that edge, the same as entry 64 · w + v, and 0 exactly where no edge
    joins them; the carried count is not examined.
    """

    _fields_ = [
        ("n", c_size_t),
        ("order", c_uint8 * PLACES),
        ("adjacency", c_uint64 * PLACES),
        ("weights", c_uint8 * (PLACES * PLACES)),
        ("count", c_uint64),
    ]


class _Edge(ctypes.Structure):
    _fields_ = [("low", c_size_t), ("high", c_size_t)]


class _Vertex(ctypes.Structure):
    _fields_ = [("refusal", c_uint8), ("vertex", c_size_t)]


class _Tally(ctypes.Structure):
    _fields_ = [("refusal", c_uint8), ("tally", c_uint64)]


class _Sifted(ctypes.Structure):
    _fields_ = [("refusal", c_uint8), ("reduction", c_uint64), ("optima", c_uint32)]


class _Round(ctypes.Structure):
    _fields_ = [("refusal", c_uint8), ("reduction", c_uint64), ("moved", c_uint32), ("optima", c_uint32)]


class _Convergence(ctypes.Structure):
    _fields_ = [
        ("refusal", c_uint8),
        ("reduction", c_uint64),
        ("rounds", c_uint32),
        ("converged", c_bool),
        ("optima", c_uint32),
    ]


class _Counted(ctypes.Structure):
    _fields_ = [("refusal", c_uint8), ("count", c_uint64)]


class _Crossing(ctypes.Structure):
    _fields_ = [("refusal", c_uint8), ("found", c_bool), ("first", _Edge), ("second", _Edge)]


class _Written(ctypes.Structure):
    _fields_ = [("refusal", c_uint8), ("length", c_size_t)]


class _EdgesCounted(ctypes.Structure):
    _fields_ = [("refusal", c_uint8), ("edges", c_size_t)]


class _Played(ctypes.Structure):
    _fields_ = [("refusal", c_uint8), ("layout", Fields), ("calls", c_size_t)]


#: Each function of hosts/c/rostulanda.h: what it answers, and what it takes.
_FUNCTIONS: Dict[str, Tuple[Any, List[Any]]] = {
    "rl_empty": (Fields, []),
    "rl_read_chart": (c_uint8, [ctypes.POINTER(Fields), c_char_p, c_size_t]),
    "rl_import_graph6": (c_uint8, [ctypes.POINTER(Fields), c_char_p, c_size_t]),
    "rl_add_vertex": (_Vertex, [ctypes.POINTER(Fields)]),
    "rl_add_edge": (c_uint8, [ctypes.POINTER(Fields), c_size_t, c_size_t, c_uint8]),
    "rl_remove_edge": (c_uint8, [ctypes.POINTER(Fields), c_size_t, c_size_t]),
    "rl_move_after": (c_uint8, [ctypes.POINTER(Fields), c_size_t, c_size_t]),
    "rl_greedy_append": (_Tally, [ctypes.POINTER(Fields), c_size_t]),
    "rl_sift": (_Sifted, [ctypes.POINTER(Fields), c_size_t]),
    "rl_sifting_round": (_Round, [ctypes.POINTER(Fields)]),
    "rl_converge": (_Convergence, [ctypes.POINTER(Fields), c_uint32]),
    "rl_count": (_Counted, [ctypes.POINTER(Fields)]),
    "rl_order": (c_uint8, [ctypes.POINTER(Fields), ctypes.POINTER(c_uint8), c_size_t]),
    "rl_first_crossing": (_Crossing, [ctypes.POINTER(Fields)]),
    "rl_write_chart": (_Written, [ctypes.POINTER(Fields), ctypes.POINTER(c_uint8), c_size_t]),
    "rl_export_graph6": (_Written, [ctypes.POINTER(Fields), ctypes.POINTER(c_uint8), c_size_t]),
    "rl_edge_crossings": (_EdgesCounted, [ctypes.POINTER(Fields), ctypes.POINTER(c_uint64), c_size_t]),
    "rl_is_valid": (c_bool, [ctypes.POINTER(Fields)]),
    "rl_list_chart": (c_size_t, [c_char_p, c_size_t, ctypes.POINTER(c_uint8), c_size_t]),
    "rl_play": (
        _Played,
        [
            c_uint8,
            c_char_p,
            c_size_t,
            ctypes.POINTER(c_uint64),
            c_size_t,
            ctypes.POINTER(c_uint64),
            c_size_t,
        ],
    ),
}


def _load() -> ctypes.CDLL:
    """The shared library, each function with its types."""
    here = Path(__file__).resolve().parent
    named = os.environ.get("RL_SHARED_LIBRARY")
    usual = [here / "librostulanda.so", here.parent.parent / "target" / "staticlib" / "librostulanda.so"]
    paths = [Path(named)] if named else usual
    path = next((path for path in paths if path.exists()), None)
    if path is None:
        missing = " and ".join(str(path) for path in paths)
        raise ImportError(f"no shared library: {missing} not there; ./build library makes it")
    library = ctypes.CDLL(str(path.resolve()))
    for name, (answer, arguments) in _FUNCTIONS.items():
        function = getattr(library, name)
        function.restype = answer
        function.argtypes = arguments
    if not _fits(library):
        raise ImportError(f"{path} has layouts of another size: it is of another version than this module")
    return library


def _fits(library: Any) -> bool:
    """Whether the library's layouts have the size of Fields.

    A refused chart leaves the empty layout, whose bytes are all 0: in what is
    lent here, which has room for two, that is to be the first one and no more.
    """
    size = ctypes.sizeof(Fields)
    lent = (Fields * 2).from_buffer_copy(b"\xff" * (2 * size))
    library.rl_read_chart(lent[0], b"", 0)
    return bytes(lent) == bytes(size) + b"\xff" * size


_library = _load()


def _accept(code: int) -> None:
    if code != 0:
        raise Refused(code)


def _shown(given: Any) -> str:
    """What a message shows of what was given: one line, cut where it is long."""
    try:
        text = " ".join(repr(given).split())
    except Exception:
        # As an integer of more than 4,300 digits.
        text = f"<{type(given).__name__} that cannot be shown>"
    return text if len(text) <= _SHOWN else f"{text[:_SHOWN]}..."


def _wrong_weight(edge: str, weight: Any) -> Refused:
    """The refusal of an edge's weight, which says what it is."""
    return Refused(Refusal.WEIGHT_OUT_OF_RANGE, f"(edge {edge} weighs {_shown(weight)})")


def _number(value: int, most: int) -> int:
    """A whole number as the library takes it.

    One that the library cannot take becomes the highest that it can, which no
    call accepts: there is no such vertex, and the limit is out of range.
    """
    value = operator.index(value)
    return value if 0 <= value <= most else most


def _vertex(value: int) -> int:
    return _number(value, 2**64 - 1)


def _weight(value: Any) -> int:
    """A weight as the library takes it; what is no whole number from 1 to 255 becomes 0, which no call accepts."""
    try:
        weight = int(value)
        return weight if weight == value and 1 <= weight <= 255 else 0
    except Exception:
        # What cannot be made a number, or not be compared with one.
        return 0


def _bytes(held: bytes) -> bytes:
    """The bytes of anything that holds bytes, and of nothing else."""
    return memoryview(held).tobytes()


# ---- what calls answer -------------------------------------------------------


class Sifted(NamedTuple):
    """What sifting a vertex did."""

    #: The reduction (document 01: saving): crossings before less crossings after.
    reduction: int
    #: How many of the n − 1 candidate places have the least crossings, the present
    #: one being a candidate; 0 below two vertices (document 02, Note 3).
    optima: int


class Round(NamedTuple):
    """What a sifting round did."""

    #: The summed reduction.
    reduction: int
    #: How many vertices moved.
    moved: int
    #: The summed optima.
    optima: int


class Convergence(NamedTuple):
    """What sifting rounds up to a limit did."""

    #: The summed reduction.
    reduction: int
    #: The rounds run, the last one included.
    rounds: int
    #: Whether the last round moved no vertex (document 01: settled). The layout
    #: is then a local minimum: no move of one vertex lowers the crossings.
    converged: bool
    #: The summed optima of all rounds, the last one included.
    optima: int


class Row(NamedTuple):
    """What sifting rounds up to a limit made of a layout.

    str(row) is the seven lines of the program ringlist, in document 01's words.
    """

    vertices: int
    edges: int
    #: The crossings before the first round.
    before: int
    #: The crossings after the last round.
    after: int
    #: The rounds run, the last one included.
    rounds: int
    #: Whether the last round moved no vertex: a local minimum.
    converged: bool
    #: The order reached, clockwise.
    order: List[Any]

    def __str__(self) -> str:
        lines = [
            f"devices {self.vertices}",
            f"links {self.edges}",
            f"before {self.before}",
            f"after {self.after}",
            f"rounds {self.rounds}",
            f"settled {'yes' if self.converged else 'no'}",
            " ".join(["order", *map(str, self.order)]),
        ]
        return "\n".join(lines)


# ---- layouts -----------------------------------------------------------------


class Layout:
    """A circular layout (document 01: ring), lent to each call.

    Layout() is the one without vertices, Layout(fields) holds these fields, valid
    or not. Vertices are the numbers 0 to n − 1. Threads do not share a layout: a
    call runs without the interpreter's lock.
    """

    def __init__(self, fields: Optional[Fields] = None) -> None:
        #: The fields, to be read, or set to anything.
        self.fields: Fields = _library.rl_empty() if fields is None else fields

    @classmethod
    def from_chart(cls, chart: bytes) -> "Layout":
        """The layout of a chart, with its true crossings."""
        return cls(_read(_library.rl_read_chart, chart))

    @classmethod
    def from_graph6(cls, graph6: bytes) -> "Layout":
        """The layout of a graph in graph6 (document 02, Note 4).

        A header >>graph6<< and a line end, as networkx.write_graph6 writes them,
        are passed over; import_graph6, the library's own call, refuses them. The
        order is 0, 1, 2 and so on, every edge weighs 1, and the count is the true
        crossings.
        """
        return cls(_read(_library.rl_import_graph6, _bare_graph6(_bytes(graph6))))

    @classmethod
    def from_edges(
        cls,
        edges: Iterable[Union[Edge, Tuple[int, int, int]]],
        n: Optional[int] = None,
        order: Optional[Sequence[int]] = None,
    ) -> "Layout":
        """The layout of the vertices in a given order, with these edges.

        The edges are pairs of numbers, or triples with a weight, and are taken as
        a set: a pair that comes again, either way round, is the same edge, and is
        to have the same weight. Without an order it is rising number; without n,
        that is the order's length, or the least that the edges allow.

        Raises Refused for more than 64 vertices (16), an end that is not there (12),
        a vertex joined to itself (13) and last a weight that is no whole number from
        1 to 255 (25); ValueError where the order does not hold each vertex once, and
        last for an edge of two weights.
        """
        given = _listed(edges)
        if n is None:
            n = len(order) if order is not None else 1 + max(_ends(given), default=-1)
        _ask_room(n)
        _ask_ends(range(n), given)
        places = list(range(n)) if order is None else list(order)
        if sorted(places) != list(range(n)):
            raise ValueError(f"the order does not hold each of the {n} vertices once")
        return cls.from_chart(_chart(n, _weights(range(n), given), places))

    def copy(self) -> "Layout":
        """Another layout with the same fields."""
        return Layout(Fields.from_buffer_copy(self.fields))

    def __eq__(self, other: object) -> bool:
        """Whether all fields are the same."""
        if not isinstance(other, Layout):
            return NotImplemented
        return bytes(self.fields) == bytes(other.fields)

    __hash__ = None  # type: ignore[assignment]

    def __repr__(self) -> str:
        return f"<Layout of {self.fields.n} vertices, carried count {self.fields.count}>"

    # calls that change the layout

    def read_chart(self, chart: bytes) -> None:
        """Reads a chart and takes its layout over; a refused one leaves this layout as it was."""
        self._take(_read(_library.rl_read_chart, chart))

    def import_graph6(self, graph6: bytes) -> None:
        """Imports a graph6, one without header or line end, and takes its layout over; a refused one leaves this layout as it was."""
        self._take(_read(_library.rl_import_graph6, graph6))

    def _take(self, fields: Fields) -> None:
        """Takes over what other fields hold."""
        ctypes.pointer(self.fields)[0] = fields

    def add_vertex(self) -> int:
        """Adds a vertex without edges at the end of the order (document 01: add).

        Gives its number.
        """
        answer = _library.rl_add_vertex(self.fields)
        _accept(answer.refusal)
        return answer.vertex

    def add_edge(self, a: int, b: int, weight: int = 1) -> None:
        """Joins two vertices by an edge (document 01: link) of a weight from 1 to 255, which is asked last."""
        refusal = _library.rl_add_edge(self.fields, _vertex(a), _vertex(b), _weight(weight))
        if refusal == Refusal.WEIGHT_OUT_OF_RANGE:
            raise _wrong_weight(f"{a}-{b}", weight)
        _accept(refusal)

    def remove_edge(self, a: int, b: int) -> None:
        """Takes the edge between two vertices away, and its weight (document 01: unlink)."""
        _accept(_library.rl_remove_edge(self.fields, _vertex(a), _vertex(b)))

    def move_after(self, a: int, b: int) -> None:
        """Takes a out of the order and puts it directly after b (document 01: move a behind b)."""
        _accept(_library.rl_move_after(self.fields, _vertex(a), _vertex(b)))

    def greedy_append(self, start: int) -> int:
        """Makes a new order by greedy append from a first vertex (document 01: lay from s).

        Vertices are chosen by their numbers of edges, and go to the end with fewer
        crossings; those without edges stand last, in rising number, but for the
        first. Gives the tally of the crossings at the ends taken, which is the
        crossings of the new order.
        """
        answer = _library.rl_greedy_append(self.fields, _vertex(start))
        _accept(answer.refusal)
        return answer.tally

    def sift(self, u: int) -> Sifted:
        """Moves u to where the crossings are fewest.

        Of several places it is the first clockwise; where none has fewer than
        its own, u stays.
        """
        answer = _library.rl_sift(self.fields, _vertex(u))
        _accept(answer.refusal)
        return Sifted(answer.reduction, answer.optima)

    def sifting_round(self) -> Round:
        """Sifts each vertex once, in rising number (document 01: round)."""
        answer = _library.rl_sifting_round(self.fields)
        _accept(answer.refusal)
        return Round(answer.reduction, answer.moved, answer.optima)

    def converge(self, limit: Optional[int] = None) -> Convergence:
        """Runs sifting rounds until one moves no vertex, or limit of them (document 01: settle).

        The limit is from 1 to 1000; without one it is enough_rounds().
        """
        if limit is None:
            limit = self.enough_rounds()
        answer = _library.rl_converge(self.fields, _number(limit, 2**32 - 1))
        _accept(answer.refusal)
        return Convergence(answer.reduction, answer.rounds, answer.converged, answer.optima)

    # calls that only read

    def count(self) -> int:
        """The carried count.

        Of a layout that came from Layout(), a chart, a graph6 or edges, and was
        changed by calls alone, it is the crossings, each counted as the product of
        its two edges' weights.
        """
        answer = _library.rl_count(self.fields)
        _accept(answer.refusal)
        return answer.count

    def crossings(self) -> int:
        """The crossings, each counted as the product of its two edges' weights.

        From the order and the edges alone: the carried count is not looked at.
        """
        # Each crossing is counted at both of its edges.
        return sum(self._edge_numbers()) // 2

    def enough_rounds(self) -> int:
        """The least limit that is known to be enough (document 02, Note 9).

        It is one round more than there are crossings, and at most MOST_ROUNDS. With
        fewer crossings than MOST_ROUNDS, converging with it ends converged.
        """
        return min(self.crossings() + 1, MOST_ROUNDS)

    def order(self) -> List[int]:
        """The vertices, clockwise."""
        buffer = bytearray(PLACES)
        self.write_order(buffer)
        return list(buffer[: self.fields.n])

    def write_order(self, buffer: bytearray) -> None:
        """Writes the order to the first n bytes of the buffer; the others keep what they hold."""
        _accept(self._write(_library.rl_order, buffer))

    def _write(self, call: Callable[..., Any], buffer: bytearray) -> Any:
        """What a call answers that writes to a lent buffer."""
        if not isinstance(buffer, bytearray):
            # Another kind of buffer might be part of the layout itself.
            raise TypeError("the buffer is to be a bytearray")
        return self._lend(call, buffer, c_uint8)

    def _lend(self, call: Callable[..., Any], held: _Lent, entry: Any) -> Any:
        """What a call answers that is lent a buffer or table of such entries.

        It is looked at when nothing holds the buffer any more: a traceback that
        did would keep the buffer from changing its size.
        """
        # The buffer of no entries may be at any address; a new one is aligned.
        lent = (entry * len(held)).from_buffer(held) if held else (entry * 0)()
        return call(self.fields, lent, len(held))

    def first_crossing(self) -> Optional[Tuple[Edge, Edge]]:
        """The first two edges that cross (document 01: shown crossing pair), or None.

        Edges are sorted by lower, then higher end, whatever they weigh. None: no
        two edges cross.
        """
        answer = _library.rl_first_crossing(self.fields)
        _accept(answer.refusal)
        if not answer.found:
            return None
        first, second = answer.first, answer.second
        return (first.low, first.high), (second.low, second.high)

    def chart(self) -> bytes:
        """The chart of this layout: edges lower end first, sorted by lower, then higher end.

        Their weights are in it exactly where some edge does not weigh 1. The
        carried count is not: read again, it gives this layout with its true
        crossings.
        """
        return bytes(_written(self.write_chart, bytearray(WRITTEN_CHART_BYTES)))

    def write_chart(self, buffer: bytearray) -> int:
        """Writes the chart to the start of the buffer; the bytes beyond keep what they hold.

        Gives its length, at most WRITTEN_CHART_BYTES.
        """
        return self._write_length(_library.rl_write_chart, buffer)

    def graph6(self) -> bytes:
        """The graph6 of this layout, without header or line end.

        Neither the order nor the carried count is in it, nor are weights: where
        some edge does not weigh 1, that is refused.
        """
        return bytes(_written(self.export_graph6, bytearray(GRAPH6_BYTES)))

    def export_graph6(self, buffer: bytearray) -> int:
        """Writes the graph6 to the start of the buffer; the bytes beyond keep what they hold.

        Gives its length, at most GRAPH6_BYTES.
        """
        return self._write_length(_library.rl_export_graph6, buffer)

    def _write_length(self, call: Callable[..., _Written], buffer: bytearray) -> int:
        """How many bytes a call writes to the start of a lent buffer."""
        answer = self._write(call, buffer)
        _accept(answer.refusal)
        return answer.length

    def edge_crossings(self) -> List[Tuple[Edge, int]]:
        """The edges, each with the crossings that it takes part in (document 02, Note 7).

        Edges are lower end first, sorted by lower, then higher end. The carried
        count is not looked at: the numbers' sum is twice the crossings.
        """
        return list(zip(_chart_edges(self.chart()), self._edge_numbers()))

    def _edge_numbers(self) -> "array[int]":
        """The crossings that each edge takes part in, in the sequence of the edges."""
        return _written(self.write_edge_crossings, array("Q", [0]) * MOST_EDGES)

    def write_edge_crossings(self, table: "array[int]") -> int:
        """Writes each edge's crossings to the start of a table, an array("Q").

        The entries beyond keep what they hold. Gives how many edges there are, at
        most MOST_EDGES.
        """
        if not isinstance(table, array) or table.typecode != "Q":
            raise TypeError('the table is to be an array("Q")')
        answer = self._lend(_library.rl_edge_crossings, table, c_uint64)
        _accept(answer.refusal)
        return answer.edges

    def is_valid(self) -> bool:
        """Whether the layout is valid (document 01: whole)."""
        return _library.rl_is_valid(self.fields)

    def edges(self) -> List[Edge]:
        """The edges, lower end first, sorted by lower, then higher end."""
        words = self.fields.adjacency[:]
        return [(low, high) for low in range(PLACES) for high in range(low + 1, PLACES) if words[low] >> high & 1]

    def weight(self, a: int, b: int) -> int:
        """The weight of the edge between two vertices, 0 where none joins them."""
        a, b = _vertex(a), _vertex(b)
        return self.fields.weights[PLACES * a + b] if max(a, b) < PLACES else 0

    def weighted_edges(self) -> List[Tuple[int, int, int]]:
        """The edges, each with its weight, sorted by lower, then higher end."""
        return [(low, high, self.weight(low, high)) for low, high in self.edges()]

    # both

    def row(self, limit: Optional[int] = None) -> Row:
        """Converges with a limit, or without one as converge does.

        Gives what the program ringlist, whose limit is LIMIT, prints of such a run.
        The crossings are counted, whatever count is carried.
        """
        before = self.crossings()
        run = self.converge(limit)
        order = self.order()
        edges = len(_chart_edges(self.chart()))
        return Row(len(order), edges, before, self.crossings(), run.rounds, run.converged, order)


def _read(call: Callable[..., int], given: bytes) -> Fields:
    """What a call reads from bytes, lent new fields: a refused call leaves the empty layout there."""
    held = _bytes(given)
    read = Fields()
    _accept(call(read, held, len(held)))
    return read


def _written(write: Callable[[_Lent], int], room: _Lent) -> _Lent:
    """What is written to the start of a buffer or table that has room for it."""
    length = write(room)
    return room[:length]


def _chart_edges(chart: bytes) -> List[Edge]:
    """The edges of a written chart, in its sequence."""
    body = chart[7 : 7 + int.from_bytes(chart[5:7], "big")]
    return list(zip(body[::2], body[1::2]))


def _bare_graph6(graph6: bytes) -> bytes:
    """A graph6 without the header and the line end that a file has."""
    header = b">>graph6<<"
    bare = graph6[len(header) :] if graph6.startswith(header) else graph6
    for line_end in (b"\n", b"\r"):
        bare = bare[:-1] if bare.endswith(line_end) else bare
    return bare


def _given(edge: Any) -> Tuple[Any, Any, Any]:
    """An edge's two ends and its weight, which is 1 where none is given."""
    parts = tuple(edge)
    if len(parts) == 2:
        return parts[0], parts[1], 1
    # A set has no last one.
    if len(parts) == 3 and not isinstance(edge, (Set, Mapping)):
        return parts[0], parts[1], parts[2]
    raise ValueError(f"an edge is two vertices, or a tuple of two vertices and a weight, not {_shown(edge)}")


def _listed(edges: Iterable[Any]) -> List[Tuple[Any, Any, Any]]:
    """Edges with their weights.

    A networkx edge view is a set, and maps each edge to its attributes. A third
    part of an edge is then its key in a multigraph, and no weight.
    """
    if not isinstance(edges, Mapping):
        return [_given(edge) for edge in edges]
    if not isinstance(edges, Set):
        raise ValueError("edges with weights are tuples (a, b, weight), not a mapping")
    return [(a, b, 1) for a, b, *_ in edges]


def _ends(edges: Iterable[Tuple[Any, Any, Any]]) -> List[Any]:
    """The two ends of each edge."""
    return [end for a, b, _ in edges for end in (a, b)]


def _ask_room(n: int) -> None:
    """Asks whether there can be so many vertices."""
    if n < 0:
        raise ValueError(f"there are not {_shown(n)} vertices")
    if n > PLACES:
        raise Refused(Refusal.NO_ROOM, f"({_shown(n)} vertices)")


def _ask_ends(labels: Sequence[Any], edges: Iterable[Tuple[int, int, Any]]) -> None:
    """Asks whether the ends of each edge are there, and differ; messages name vertices by their labels."""
    n = len(labels)
    for a, b, _ in edges:
        if not (0 <= a < n and 0 <= b < n):
            raise Refused(Refusal.NO_SUCH_VERTEX, f"(edge {_shown(a)}-{_shown(b)}, n {n})")
        if a == b:
            raise Refused(Refusal.SAME_VERTEX, f"({_shown(labels[a])} is joined to itself)")


def _weights(labels: Sequence[Any], edges: Iterable[Tuple[int, int, Any]]) -> Dict[Edge, int]:
    """The weight of each edge, its lower end first; nothing but the weights is left to ask."""
    weights: Dict[Edge, int] = {}
    named = lambda a, b: f"{_shown(labels[a])}-{_shown(labels[b])}"
    for a, b, given in edges:
        weight = _weight(given)
        if weight == 0:
            raise _wrong_weight(named(a, b), given)
        first = weights.setdefault((min(a, b), max(a, b)), weight)
        if first != weight:
            raise ValueError(f"edge {named(a, b)} comes with two weights, {first} and {weight}")
    return weights


def _chart(n: int, weights: Dict[Edge, int], order: Iterable[int]) -> bytes:
    """The chart of a graph, by each edge's weight, and an order."""
    edges = sorted(weights)
    bodies = {0x44: bytes([n]), 0x4C: bytes(end for edge in edges for end in edge), 0x52: bytes(order)}
    if any(weight != 1 for weight in weights.values()):
        bodies[0x57] = bytes(weights[edge] for edge in edges)
    fields = (bytes([tag]) + len(body).to_bytes(2, "big") + body for tag, body in bodies.items())
    return b"".join(fields)


# ---- graphs, charts and lists of calls in one go -----------------------------


class Graph(Protocol):
    """A graph as networkx has it: nodes() are its vertices, edges() its pairs.

    edges(data=NAME, default=OTHER) are triples with the value of an attribute,
    or OTHER where an edge lacks it.
    """

    @property
    def nodes(self) -> Callable[[], Iterable[Hashable]]: ...

    @property
    def edges(self) -> Callable[..., Iterable[GivenEdge]]: ...


#: A graph, or the edges of one: pairs of vertices of any hashable kind, or triples with a weight.
GraphOrEdges = Union[Graph, Iterable[GivenEdge]]


def _parts(
    graph: GraphOrEdges, weight: Optional[str]
) -> Tuple[List[Hashable], List[Tuple[Hashable, Hashable, Any]]]:
    """The vertices that a graph names itself, in its own sequence, and its edges with their weights."""
    given: Any = graph
    if hasattr(given, "nodes"):
        edges = _listed(given.edges()) if weight is None else _attributed(given, weight)
        return list(given.nodes()), edges
    if weight is not None:
        raise ValueError(f"only a graph has an attribute {weight!r}: edges by themselves are triples with a weight")
    return [], _listed(given)


def _attributed(graph: Graph, name: str) -> List[Tuple[Hashable, Hashable, Any]]:
    """A graph's edges with the weights that an attribute has, 1 where an edge lacks it."""
    lacking = object()
    edges = _listed(graph.edges(data=name, default=lacking))
    if edges and all(weight is lacking for _, _, weight in edges):
        raise ValueError(f"no edge of the graph has an attribute {name!r}")
    return [(a, b, 1 if weight is lacking else weight) for a, b, weight in edges]


def _numbered(
    labels: Sequence[Hashable], edges: Iterable[Tuple[Hashable, Hashable, Any]]
) -> List[Tuple[int, int, Any]]:
    """The edges between the numbers of their ends, which are the labels' places; asks whether the ends differ."""
    number = {label: v for v, label in enumerate(labels)}
    numbers = [(number[a], number[b], weight) for a, b, weight in edges]
    _ask_ends(labels, numbers)
    return numbers


def _ask_run(labels: Sequence[Hashable], start: Optional[Hashable], limit: Optional[int]) -> None:
    """Asks whether the start is there and the limit in its range, where they are given."""
    if start is not None and start not in labels:
        raise Refused(Refusal.NO_SUCH_VERTEX, f"({_shown(start)} is not there)")
    Layout().converge(limit)


def _held(labels: Sequence[Hashable], edges: Iterable[Tuple[int, int, Any]]) -> Layout:
    """The layout of the labelled vertices in rising number; nothing but the weights is left to ask."""
    n = len(labels)
    return Layout.from_chart(_chart(n, _weights(labels, edges), range(n)))


def layout(
    graph: GraphOrEdges,
    vertices: Iterable[Hashable] = (),
    limit: Optional[int] = None,
    start: Optional[Hashable] = None,
    weight: Optional[str] = None,
) -> Row:
    """A circular layout with few crossings of any graph of up to 64 vertices.

    The graph is a networkx graph, or its edges: pairs of vertices of any
    hashable kind, or triples with a weight. Edges are taken as a set of
    undirected ones: a pair that comes again, either way round, is the same edge,
    and is to have the same weight. Of a networkx graph, `weight` names the
    attribute that has the weights; an edge that lacks it weighs 1, and without a
    name every edge does, as those of an edge view, G.edges, do.

    Vertices are numbered from 0, and the order to begin with, of which `before`
    counts the crossings, is that of their numbers: a networkx graph's own
    sequence, as in its graph6, with its isolated vertices. Of pairs it is that
    in which they are first met, and vertices without edges are not known. Those
    that `vertices` names come before all others. With a start, greedy append
    from that vertex makes the order to begin with. Then sifting rounds run up to
    the limit, or without one until none moves a vertex, 1000 at most: with fewer
    than 1000 crossings before, the row is converged (document 02, Note 9). The
    row's order holds the vertices as they were given.

    Raises Refused for more than 64 vertices (16), a vertex joined to itself (13), a
    start that is not there (12), a limit out of range (17) and last a weight that is
    no whole number from 1 to 255 (25); ValueError for a `weight` that no edge of the
    graph has, or beside edges by themselves, and last for an edge of two weights.
    """
    nodes, edges = _parts(graph, weight)
    labels = list(dict.fromkeys([*vertices, *nodes, *_ends(edges)]))
    _ask_room(len(labels))
    numbers = _numbered(labels, edges)
    _ask_run(labels, start, limit)
    held = _held(labels, numbers)
    if start is not None:
        held.greedy_append(labels.index(start))
    row = held.row(limit)
    return row._replace(order=[labels[v] for v in row.order])


#: Document 01's word for it.
settle = layout


class Move(NamedTuple):
    """A move of one vertex that lowers the crossings."""

    #: The vertex that is moved,
    vertex: Any
    #: the one that it is put directly after (document 01: behind),
    after: Any
    #: and how many crossings fewer there are then.
    reduction: int


class Checked(NamedTuple):
    """What is true of an order that somebody printed."""

    #: Its crossings.
    crossings: int
    #: Whether these are what was printed.
    right: bool
    #: A move that betters it; None: a local minimum, no move of one vertex lowers the crossings.
    better: Optional[Move]


def check_row(
    graph: GraphOrEdges, order: Iterable[Hashable], crossings: int, weight: Optional[str] = None
) -> Checked:
    """Whether printed crossings are those of a printed order, and whether a move betters it.

    The graph and `weight` are what `layout` takes, the order holds each of its
    vertices once, the isolated ones too. Each vertex is sifted, in the order's own
    sequence, and the first one that moves gives the move, to its best place.

    Raises Refused as `layout` does (16, 13, 25); ValueError where the order lacks a
    vertex of the graph or holds one twice, for a `weight` that no edge of the graph
    has, or beside edges by themselves, and last for an edge of two weights.
    """
    nodes, edges = _parts(graph, weight)
    labels = list(order)
    _ask_room(len(labels))
    places = set(labels)
    for vertex in [*nodes, *_ends(edges)]:
        if vertex not in places:
            raise ValueError(f"the order does not hold {_shown(vertex)}")
    numbers = _numbered(labels, edges)
    if len(places) < len(labels):
        raise ValueError("the order holds a vertex twice")
    held = _held(labels, numbers)
    counted = held.count()
    return Checked(counted, counted == crossings, _better(held, labels))


def _better(held: Layout, labels: Sequence[Any]) -> Optional[Move]:
    """The move of the first vertex that a sift moves, if there is one."""
    for u, vertex in enumerate(labels):
        reduction = held.sift(u).reduction
        if reduction > 0:
            # A sifted vertex never comes to stand first.
            order = held.order()
            return Move(vertex, labels[order[order.index(u) - 1]], reduction)
    return None


def list_chart(chart: bytes) -> str:
    """What the program ringlist prints for a chart: seven lines, or one for a refused chart."""
    held = _bytes(chart)
    out = (c_uint8 * LISTING_BYTES)()
    length = _library.rl_list_chart(held, len(held), out, len(out))
    return bytes(out[:length]).decode("ascii")


#: What each call of a list names; an edge that is added names its weight or not.
_NAMED: Dict[str, Sequence[Tuple[str, ...]]] = {
    "add_vertex": [()],
    "add_edge": [("a", "b"), ("a", "b", "weight")],
    "remove_edge": [("a", "b")],
    "move_after": [("a", "b")],
    "greedy_append": [("start",)],
    "sift": [("u",)],
    "sifting_round": [()],
    "converge": [("limit",)],
}

#: The number of each call in a list.
CALLS: Dict[str, int] = {
    "add_vertex": 16,
    "add_edge": 17,
    "remove_edge": 18,
    "move_after": 19,
    "greedy_append": 20,
    "sift": 21,
    "sifting_round": 22,
    "converge": 23,
}


class Answer(NamedTuple):
    """What one call of a list answered."""

    #: The refusal code, 0 for an accepted call.
    refusal: int
    #: Four numbers, in the sequence of the call's own answer, 0 where it has
    #: fewer; a bool counts as 0 or 1.
    numbers: Tuple[int, int, int, int]


class Played(NamedTuple):
    """A list of calls played: the layout at the end, and each call's answer."""

    layout: Layout
    answers: List[Answer]


def _start(chart: Optional[bytes], graph6: Optional[bytes]) -> Tuple[int, bytes]:
    """Where a list starts: the number of rl_origin, and the bytes."""
    if chart is not None and graph6 is not None:
        raise ValueError("a list starts from a chart or from a graph6, not from both")
    if chart is not None:
        return 1, _bytes(chart)
    if graph6 is not None:
        return 2, _bytes(graph6)
    return 0, b""


def _form(name: str, named: Sequence[str]) -> str:
    """How a call of a list is written."""
    return f"({name!r},)" if not named else f"({', '.join([repr(name), *named])})"


def _call_numbers(call: Sequence[Any]) -> List[int]:
    """The numbers of a call: which it is, and what it names."""
    if isinstance(call, str) or not call:
        raise ValueError(f"a call is a name and what it names, as ('sift', 0), not {_shown(call)}")
    name, *named = call
    if name not in CALLS:
        raise ValueError(f"there is no call {_shown(name)}: the calls are {', '.join(CALLS)}")
    if len(named) not in map(len, _NAMED[name]):
        due = " or ".join(_form(name, form) for form in _NAMED[name])
        raise ValueError(f"{_shown(tuple(call))} names {len(named)} numbers: the call is {due}")
    weight = 0
    if name == "add_edge":
        weight = _weight(named.pop()) if len(named) == 3 else 1
    return [*[CALLS[name], *map(_vertex, named), 0, 0][:3], weight]


def play(
    calls: Iterable[Sequence[Any]], chart: Optional[bytes] = None, graph6: Optional[bytes] = None
) -> Played:
    """Plays a list of calls from a chart, from a graph6, or from the empty layout.

    A call is its name and what it names: ("add_vertex",), ("add_edge", 0, 1),
    ("add_edge", 0, 2, 255) with a weight, ("converge", 50). Refused calls may
    stand anywhere among them, and answer their refusal code, as 25 for what is no
    weight; only a refused chart or graph6 raises Refused. The graph6 is one
    without header or line end. Raises ValueError, and plays nothing, where a call
    is none of CALLS or names too few or too many numbers.
    """
    numbers = [number for call in calls for number in _call_numbers(call)]
    origin, held = _start(chart, graph6)
    listed = (c_uint64 * len(numbers))(*numbers)
    table = (c_uint64 * (len(numbers) // CALL_NUMBERS * ANSWER_NUMBERS))()
    played = _library.rl_play(origin, held, len(held), listed, len(listed), table, len(table))
    _accept(played.refusal)
    starts = range(0, played.calls * ANSWER_NUMBERS, ANSWER_NUMBERS)
    rows = (table[start : start + ANSWER_NUMBERS] for start in starts)
    return Played(Layout(played.layout), [Answer(refusal, (a, b, c, d)) for refusal, a, b, c, d in rows])
