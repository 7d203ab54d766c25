"""Tests of the module rostulanda. That all answers are right is what the comparisons of play.py look at."""

import ctypes
import itertools
import pathlib
import random
import tempfile
import unittest
import zipfile
from array import array
from collections import Counter, abc

import rostulanda
import wheel_of_library
from rostulanda import Layout, Refusal, Refused

try:
    import networkx
except ImportError:
    networkx = None
    print("networkx is not installed: the tests of its graphs were not run")

CHARTS = pathlib.Path(__file__).resolve().parents[2] / "charts"

CHART = CHARTS.joinpath("first.chart").read_bytes()

#: The same in graph6: 0-2 is the second pair, 1-3 the fifth.
GRAPH6 = bytes([4 + 63, 0b010010 + 63])


def crossing_pairs(order, edges):
    """The pairs of edges that cross, from the definition."""
    place = {v: i for i, v in enumerate(order)}
    spans = [(*sorted((place[a], place[b])), (a, b)) for a, b in edges]
    return [
        (one, other)
        for (a, b, one), (c, d, other) in itertools.combinations(spans, 2)
        if a < c < b < d or c < a < d < b
    ]


def crossings(order, weights):
    """The crossings by weight, from the definition; the weights are a dict of the edges."""
    return sum(weights[one] * weights[other] for one, other in crossing_pairs(order, weights))


def random_weights(chance, n, density):
    """Some of all edges of n vertices, each with its weight."""
    pairs = itertools.combinations(range(n), 2)
    return {pair: chance.choice((1, 2, 7, 254, 255)) for pair in pairs if chance.random() < density}


def triples(weights):
    return [(a, b, weight) for (a, b), weight in weights.items()]


class RefusedCalls(unittest.TestCase):
    def refuses(self, refusal, call, *arguments, words=""):
        """The call is refused with a code, in one line that says its question, and these words."""
        with self.assertRaises(Refused) as caught:
            call(*arguments)
        self.assertEqual(caught.exception.code, refusal)
        said = str(caught.exception)
        self.assertIn(rostulanda.QUESTIONS[refusal], said)
        self.assertIn(words, said)
        self.assertNotIn("\n", said)


class LayoutTest(RefusedCalls):
    def test_a_chart_is_read(self):
        layout = Layout.from_chart(CHART)
        self.assertEqual(layout.order(), [0, 1, 2, 3])
        self.assertEqual(layout.edges(), [(0, 2), (1, 3)])
        self.assertEqual(layout.count(), 1)
        self.assertEqual(layout.first_crossing(), ((0, 2), (1, 3)))
        self.assertTrue(layout.is_valid())

    def test_a_refused_chart_leaves_the_layout(self):
        layout = Layout.from_chart(CHART)
        self.refuses(Refusal.CHART_TAGS, layout.read_chart, b"")
        self.refuses(Refusal.CHART_FIELDS, layout.read_chart, b"\x01")
        self.refuses(Refusal.CHART_TOO_LONG, layout.read_chart, bytes(8193))
        with self.assertRaises(TypeError):
            layout.read_chart(5)
        self.assertEqual(layout, Layout.from_chart(CHART))

    def test_a_chart_is_read_into_the_same_fields(self):
        layout = Layout.from_edges([(0, 1), (1, 2)])
        fields = layout.fields
        layout.read_chart(CHART)
        self.assertEqual(layout, Layout.from_chart(CHART))
        self.assertIs(layout.fields, fields)
        self.refuses(Refusal.CHART_TAGS, layout.read_chart, b"")
        self.assertEqual(fields.n, 4)

    def test_edits(self):
        layout = Layout.from_chart(CHART)
        self.assertEqual(layout.add_vertex(), 4)
        layout.add_edge(4, 1)
        self.assertEqual(layout.count(), 2)
        self.refuses(Refusal.EDGE_IS_THERE, layout.add_edge, 1, 4)
        self.refuses(Refusal.SAME_VERTEX, layout.add_edge, 4, 4)
        layout.remove_edge(4, 1)
        self.refuses(Refusal.NO_SUCH_EDGE, layout.remove_edge, 4, 1)
        layout.move_after(4, 0)
        self.assertEqual(layout.order(), [0, 4, 1, 2, 3])

    def test_numbers_that_the_library_cannot_take(self):
        layout = Layout.from_chart(CHART)
        for vertex in (-1, 4, 2**64 - 1, 2**64, 2**64 + 1):
            self.refuses(Refusal.NO_SUCH_VERTEX, layout.add_edge, vertex, 0)
            self.refuses(Refusal.NO_SUCH_VERTEX, layout.add_edge, vertex, vertex)
            self.refuses(Refusal.NO_SUCH_VERTEX, layout.sift, vertex)
        for limit in (-1, 0, 1001, 2**32 - 1, 2**32, 2**32 + 50):
            self.refuses(Refusal.LIMIT_OUT_OF_RANGE, layout.converge, limit)
        with self.assertRaises(TypeError):
            layout.sift(1.5)
        self.assertEqual(layout, Layout.from_chart(CHART))

    def test_sifting(self):
        layout = Layout.from_chart(CHART)
        self.assertEqual(layout.sift(0), rostulanda.Sifted(reduction=1, optima=2))
        self.assertEqual(layout.order(), [1, 0, 2, 3])
        self.assertIsNone(layout.first_crossing())
        one_round = rostulanda.Round(reduction=1, moved=1, optima=8)
        self.assertEqual(Layout.from_chart(CHART).sifting_round(), one_round)
        run = rostulanda.Convergence(reduction=1, rounds=1, converged=False, optima=8)
        self.assertEqual(Layout.from_chart(CHART).converge(1), run)
        run = run._replace(rounds=2, converged=True, optima=16)
        self.assertEqual(Layout.from_chart(CHART).converge(2), run)
        self.assertEqual(Layout.from_chart(CHART).converge(), run)

    def test_without_a_limit_one_round_more_than_the_crossings(self):
        layout = Layout.from_chart(CHART)
        self.assertEqual((layout.crossings(), layout.enough_rounds()), (1, 2))
        # A limit that only equals the crossings is spent before it is settled.
        self.assertFalse(layout.copy().converge(1).converged)
        run = rostulanda.Convergence(reduction=1, rounds=2, converged=True, optima=16)
        self.assertEqual(layout.converge(), run)
        self.assertEqual(layout.order(), [1, 0, 2, 3])
        empty = Layout()
        self.assertEqual((empty.crossings(), empty.enough_rounds()), (0, 1))
        self.assertEqual(empty.converge(None), (0, 1, True, 0))

    def test_the_limit_does_not_go_by_the_carried_count(self):
        for count in (0, 2, 77, 2**32, 2**64 - 1):
            layout = Layout.from_chart(CHART)
            layout.fields.count = count
            self.assertEqual((layout.crossings(), layout.enough_rounds()), (1, 2))
            row = layout.copy().row()
            self.assertEqual((row.before, row.after, row.rounds, row.converged), (1, 0, 2, True))
            self.assertTrue(layout.converge().converged)
            self.assertEqual(layout.order(), [1, 0, 2, 3])
            self.assertEqual(layout.count(), (count - 1) % 2**64)

    def test_the_largest_limit(self):
        for weights, crossings, limit in (
            ((1, 1, 1), 2, 3),
            ((2, 249, 250), 998, 999),
            ((3, 200, 133), 999, 1000),
            ((4, 200, 50), 1000, 1000),
            ((200, 255, 255), 102_000, 1000),
        ):
            edges = [(a, b, weight) for (a, b), weight in zip(((0, 2), (1, 3), (1, 4)), weights)]
            layout = Layout.from_edges(edges)
            self.assertEqual((layout.crossings(), layout.enough_rounds()), (crossings, limit))
            self.assertTrue(layout.converge().converged)
        full = Layout.from_edges([(a, b, 255) for a, b in itertools.combinations(range(64), 2)])
        self.assertEqual((full.crossings(), full.enough_rounds()), (41_315_324_400, rostulanda.MOST_ROUNDS))
        # Just above 2^32: of 32 bits, 309 would be left.
        parts = ((range(47), 155), (range(47, 64), 64))
        edges = [(a, b, weight) for part, weight in parts for a, b in itertools.combinations(part, 2)]
        layout = Layout.from_edges(edges)
        self.assertEqual((layout.crossings(), layout.enough_rounds()), (2**32 + 309, rostulanda.MOST_ROUNDS))

    def test_rounds_are_at_most_the_crossings_taken_away_and_one(self):
        chance = random.Random(9)
        rounds = []
        for n in range(4, 20):
            pairs = [pair for pair in itertools.combinations(range(n), 2) if chance.random() < 1 / 3]
            layout = Layout.from_edges([(a, b, chance.randint(1, 2)) for a, b in pairs], n=n)
            before = layout.copy()
            layout.fields.count = chance.randrange(2**64)
            row = layout.row()
            self.assertTrue(row.converged or row.before >= rostulanda.MOST_ROUNDS)
            self.assertLessEqual(row.rounds, row.before - row.after + 1)
            self.assertEqual(row.before, before.count())
            rounds.append(row.rounds)
            if row.rounds > 1:
                self.assertFalse(before.converge(row.rounds - 1).converged)
        self.assertGreater(max(rounds), 2)

    def test_all_places_of_a_complete_graph_are_optima(self):
        for n in range(1, 5):
            layout = Layout.from_edges(itertools.combinations(range(n), 2), n=n)
            self.assertEqual(layout.sift(0), (0, n - 1))
            self.assertEqual(layout.sifting_round().optima, n * (n - 1))

    def test_optima_of_random_graphs(self):
        chance = random.Random(3)
        for n in (2, 3, 7, 12):
            edges = [pair for pair in itertools.combinations(range(n), 2) if chance.random() < 0.4]
            order = chance.sample(range(n), n)
            u, *others = chance.sample(range(n), n)
            layout = Layout.from_edges(edges, n=n, order=order)
            candidates = [layout.copy() for _ in others]
            for candidate, v in zip(candidates, others):
                candidate.move_after(u, v)
            counts = [candidate.count() for candidate in candidates]
            self.assertEqual(layout.sift(u).optima, counts.count(min(counts)))

    def test_greedy_append(self):
        layout = Layout.from_edges([(0, 1), (0, 2), (1, 3), (2, 3)])
        self.assertEqual(layout.greedy_append(0), 0)
        self.assertEqual(layout.order(), [2, 0, 1, 3])
        self.refuses(Refusal.NO_SUCH_VERTEX, layout.greedy_append, 4)

    def test_an_order_goes_into_a_lent_buffer(self):
        layout = Layout.from_chart(CHART)
        buffer = bytearray([77] * 5)
        layout.write_order(buffer)
        self.assertEqual(buffer, bytes([0, 1, 2, 3, 77]))
        short = bytearray([77] * 3)
        self.refuses(Refusal.BUFFER_TOO_SHORT, layout.write_order, short)
        self.assertEqual(short, bytes([77] * 3))
        short.append(77)
        layout.write_order(short)
        Layout().write_order(bytearray())
        with self.assertRaises(TypeError):
            layout.write_order(memoryview(layout.fields.order))

    def test_a_chart_is_written_as_it_is_read(self):
        self.assertEqual(Layout.from_chart(CHART).chart(), CHART)
        self.assertEqual(Layout().chart(), bytes([0x44, 0, 1, 0, 0x4C, 0, 0, 0x52, 0, 0]))
        for links in ((1, 3, 0, 2), (3, 1, 2, 0)):
            listed = CHART[:7] + bytes(links) + CHART[11:]
            self.assertEqual(Layout.from_chart(listed).chart(), CHART)

    def test_a_written_chart_gives_the_true_count(self):
        layout = Layout.from_edges([(0, 2), (1, 3)], order=[2, 1, 0, 3])
        carried = layout.copy()
        carried.fields.count = 77
        chart = carried.chart()
        self.assertEqual(carried.count(), 77)
        carried.read_chart(chart)
        self.assertEqual(carried, layout)

    def test_a_chart_or_graph6_goes_into_a_lent_buffer(self):
        layout = Layout.from_chart(CHART)
        for write, due in ((layout.write_chart, CHART), (layout.export_graph6, GRAPH6)):
            for beyond in (b"", bytes([77])):
                buffer = bytearray([77] * len(due + beyond))
                self.assertEqual(write(buffer), len(due))
                self.assertEqual(buffer, due + beyond)
            for length in (0, len(due) - 1):
                short = bytearray([77] * length)
                self.refuses(Refusal.WRITE_BUFFER_TOO_SHORT, write, short)
                self.assertEqual(short, bytes([77] * length))
            with self.assertRaises(TypeError):
                write(memoryview(layout.fields.order))

    def test_a_refused_call_lets_go_of_its_buffer(self):
        layout = Layout.from_chart(CHART)
        for write, short in (
            (layout.write_order, bytearray(1)),
            (layout.write_chart, bytearray(1)),
            (layout.export_graph6, bytearray(1)),
            (layout.write_edge_crossings, array("Q", [0])),
        ):
            try:
                write(short)
            except Refused:
                short.append(77)
            self.assertEqual(len(short), 2)

    def test_the_crossings_of_every_edge(self):
        edges = [(3, 5), (2, 4), (0, 1), (5, 0), (2, 1), (4, 3), (5, 2)]
        layout = Layout.from_edges(edges, order=[0, 3, 2, 1, 5, 4])
        self.assertEqual(layout.count(), 7)
        layout.fields.count = 77
        due = {(0, 1): 4, (0, 5): 2, (1, 2): 0, (2, 4): 3, (2, 5): 1, (3, 4): 2, (3, 5): 2}
        self.assertEqual(layout.edge_crossings(), list(due.items()))
        for n in (0, 1, 64):
            self.assertEqual(Layout.from_edges([], n=n).edge_crossings(), [])

    def test_the_crossings_of_every_edge_go_into_a_lent_table(self):
        layout = Layout.from_chart(CHART)
        for beyond in ([], [77]):
            table = array("Q", [77, 77] + beyond)
            self.assertEqual(layout.write_edge_crossings(table), 2)
            self.assertEqual(table, array("Q", [1, 1] + beyond))
        for length in (0, 1):
            short = array("Q", [77] * length)
            self.refuses(Refusal.TABLE_TOO_SHORT, layout.write_edge_crossings, short)
            self.assertEqual(short, array("Q", [77] * length))
        self.assertEqual(Layout().write_edge_crossings(array("Q")), 0)
        for other in (array("I", [0, 0]), bytearray(16), memoryview(layout.fields.order)):
            with self.assertRaises(TypeError):
                layout.write_edge_crossings(other)

    def test_an_invalid_layout_is_refused_and_left(self):
        layout = Layout.from_chart(CHART)
        layout.fields.adjacency[0] = 2**64 - 1
        before = layout.copy()
        self.assertFalse(layout.is_valid())
        for call in (
            layout.add_vertex,
            layout.sifting_round,
            layout.converge,
            layout.count,
            layout.crossings,
            layout.enough_rounds,
            layout.order,
            layout.first_crossing,
            layout.chart,
            layout.graph6,
            layout.edge_crossings,
            layout.row,
        ):
            self.refuses(Refusal.INVALID_LAYOUT, call)
        self.refuses(Refusal.INVALID_LAYOUT, layout.sift, 0)
        self.refuses(Refusal.INVALID_LAYOUT, layout.converge, 50)
        self.refuses(Refusal.INVALID_LAYOUT, layout.row, 50)
        self.refuses(Refusal.INVALID_LAYOUT, layout.write_chart, bytearray())
        self.refuses(Refusal.INVALID_LAYOUT, layout.export_graph6, bytearray())
        self.refuses(Refusal.INVALID_LAYOUT, layout.write_edge_crossings, array("Q"))
        self.assertEqual(layout, before)

    def test_a_copy_is_another_layout(self):
        layout = Layout.from_chart(CHART)
        twin = layout.copy()
        twin.sift(0)
        self.assertEqual(layout, Layout.from_chart(CHART))
        self.assertNotEqual(layout, twin)


    def test_a_graph6_is_exported_as_it_is_imported(self):
        self.assertEqual(Layout.from_graph6(GRAPH6), Layout.from_chart(CHART))
        self.assertEqual(Layout.from_graph6(b"?"), Layout())
        for graph6 in (b"?", b"@", b"A?", b"A_", GRAPH6, b"D?{"):
            self.assertEqual(Layout.from_graph6(graph6).graph6(), graph6)

    def test_a_graph6_has_neither_order_nor_count(self):
        layout = Layout.from_edges([(0, 2), (1, 3)], order=[2, 1, 0, 3])
        layout.fields.count = 77
        self.assertEqual(layout.graph6(), GRAPH6)
        layout.import_graph6(GRAPH6)
        self.assertEqual(layout, Layout.from_chart(CHART))

    def test_a_refused_graph6_leaves_the_layout(self):
        layout = Layout.from_chart(CHART)
        for refusal, refused in (
            (Refusal.GRAPH6_SIZE, (b"", b">>graph6<<CQ", b"~??", b"~??CQ", b"~?@@")),
            (Refusal.GRAPH6_DATA, (b"C", b"CQ\n", b"C\0", b"~?@?")),
            (Refusal.GRAPH6_PADDING, (b"B@",)),
        ):
            for graph6 in refused:
                self.refuses(refusal, layout.import_graph6, graph6)
        with self.assertRaises(TypeError):
            layout.import_graph6("CQ")
        self.assertEqual(layout, Layout.from_chart(CHART))


    def test_a_graph6_as_a_file_has_it(self):
        for header, line_end in itertools.product((b"", b">>graph6<<"), (b"", b"\n", b"\r\n")):
            for graph6 in (b"?", GRAPH6):
                layout = Layout.from_graph6(header + graph6 + line_end)
                self.assertEqual(layout, Layout.from_graph6(graph6))
        for refusal, refused in (
            (Refusal.GRAPH6_SIZE, (b"", b"\n", b">>graph6<<", b">>graph6<<>>graph6<<CQ", b">>sparse6<<CQ", b"~??CQ")),
            (Refusal.GRAPH6_DATA, (b"C", b"C\n", b"CQ\n\n", b"CQ\n\r", b"CQ ", b"CQ\nCQ\n")),
            (Refusal.GRAPH6_PADDING, (b"B@", b">>graph6<<B@\n")),
        ):
            for graph6 in refused:
                self.refuses(refusal, Layout.from_graph6, graph6)
        with self.assertRaises(TypeError):
            Layout.from_graph6("CQ")


class FromEdgesTest(unittest.TestCase):
    def test_edges_are_a_set(self):
        layout = Layout.from_edges([(2, 0), (1, 3), (0, 2), (1, 3)])
        self.assertEqual(layout, Layout.from_chart(CHART))

    def test_vertices_without_edges_and_an_order(self):
        self.assertEqual(Layout.from_edges([], n=3).order(), [0, 1, 2])
        self.assertEqual(Layout.from_edges([]), Layout())
        layout = Layout.from_edges([(0, 2), (1, 3)], order=[0, 2, 1, 3])
        self.assertEqual((layout.order(), layout.count()), ([0, 2, 1, 3], 0))

    def test_what_is_no_layout(self):
        for edges, n, order, error in (
            ([(1, 1)], None, None, Refusal.SAME_VERTEX),
            ([(0, 5)], 5, None, Refusal.NO_SUCH_VERTEX),
            ([(0, -1)], 5, None, Refusal.NO_SUCH_VERTEX),
            ([(0, 64)], None, None, Refusal.NO_ROOM),
            ([(0, 1)], 2, [0, 0], None),
            ([(0, 1)], 2, [0], None),
            ([(0, 1, 2, 3)], None, None, None),
            ([(0,)], None, None, None),
            ([], -1, None, None),
            ([(0, 1, 0)], None, None, Refusal.WEIGHT_OUT_OF_RANGE),
            ([(0, 1, 256)], None, None, Refusal.WEIGHT_OUT_OF_RANGE),
            ([(0, 1, 2), (1, 0, 3)], None, None, None),
            ([(0, 1, 2), (0, 1)], None, None, None),
            ({(0, 1): 5}, None, None, None),
            ([{0, 1, 5}], None, None, None),
            # Weights are asked last.
            ([(1, 1, 0)], None, None, Refusal.SAME_VERTEX),
            ([(0, 5, 0)], 5, None, Refusal.NO_SUCH_VERTEX),
            ([(0, 64, 0)], None, None, Refusal.NO_ROOM),
            ([(0, 1, 0)], 2, [0, 0], None),
            ([(0, 1, 2), (0, 1, 3), (2, 2)], None, None, Refusal.SAME_VERTEX),
            ([(0, 1, 2), (0, 1, 3), (0, 5)], 5, None, Refusal.NO_SUCH_VERTEX),
            ([(0, 1, 2), (0, 1, 3), (0, 64)], None, None, Refusal.NO_ROOM),
        ):
            with self.assertRaises(ValueError) as caught:
                Layout.from_edges(edges, n=n, order=order)
            self.assertEqual(getattr(caught.exception, "code", None), error)
            self.assertNotIn("\n", str(caught.exception))

    def test_crossings_of_random_graphs(self):
        chance = random.Random(1)
        for n in (2, 5, 12, 30):
            weights = random_weights(chance, n, 0.4)
            order = chance.sample(range(n), n)
            for weighted in (weights, dict.fromkeys(weights, 1)):
                layout = Layout.from_edges(triples(weighted), n=n, order=order)
                self.assertEqual(layout.edges(), list(weighted))
                self.assertEqual(layout.weighted_edges(), triples(weighted))
                self.assertEqual(layout.count(), crossings(order, weighted))
                met = Counter()
                for one, other in crossing_pairs(order, weighted):
                    product = weighted[one] * weighted[other]
                    met.update({one: product, other: product})
                self.assertEqual(layout.edge_crossings(), [(edge, met[edge]) for edge in weighted])
                self.assertEqual(layout.chart(), rostulanda._chart(n, weighted, order))
                self.assertEqual(Layout.from_chart(layout.chart()), layout)

    def test_the_most_edges(self):
        for weight, length, count in ((1, 4106, 635376), (255, rostulanda.WRITTEN_CHART_BYTES, 41315324400)):
            layout = Layout.from_edges((a, b, weight) for a, b in itertools.combinations(range(64), 2))
            self.assertEqual(layout.count(), count)
            chart = layout.chart()
            self.assertEqual(len(chart), length)
            self.assertEqual(Layout.from_chart(chart), layout)
            # Each vertex on one side of a chord is joined to all on the other.
            between = [(a, b, b - a - 1) for a, b in itertools.combinations(range(64), 2)]
            due = [((a, b), k * (62 - k) * weight**2) for a, b, k in between]
            self.assertEqual(layout.edge_crossings(), due)
            self.assertEqual(len(due), rostulanda.MOST_EDGES)
            self.assertEqual(sum(number for _, number in due), 2 * layout.count())

    def test_the_longest_graph6(self):
        layout = Layout.from_edges(itertools.combinations(range(64), 2))
        graph6 = layout.graph6()
        self.assertEqual(len(graph6), rostulanda.GRAPH6_BYTES)
        self.assertEqual(Layout.from_graph6(graph6), layout)


class WeightTest(RefusedCalls):
    def heavy(self):
        """The first layout, with the weights 200 and 100."""
        return Layout.from_edges([(2, 0, 200), (1, 3, 100)])

    def test_a_crossing_counts_the_product_of_its_weights(self):
        layout = Layout.from_edges([], n=4)
        layout.add_edge(2, 0, 200)
        layout.add_edge(1, 3, weight=100)
        self.assertEqual(layout, self.heavy())
        self.assertEqual(layout.count(), 20000)
        self.assertEqual(layout.edge_crossings(), [((0, 2), 20000), ((1, 3), 20000)])
        self.assertEqual(layout.first_crossing(), ((0, 2), (1, 3)))
        self.assertEqual(layout.sift(0), (20000, 2))
        self.assertEqual((layout.count(), layout.weighted_edges()), (0, [(0, 2, 200), (1, 3, 100)]))

    def test_the_weight_of_two_vertices(self):
        layout = self.heavy()
        self.assertEqual((layout.weight(0, 2), layout.weight(2, 0), layout.weight(3, 1)), (200, 200, 100))
        for a, b in ((0, 1), (1, 1), (0, 4), (63, 64), (64, 0), (-1, 0), (0, -2), (2**64, 0)):
            self.assertEqual(layout.weight(a, b), 0)
        layout.add_edge(0, 1)
        self.assertEqual(layout.weight(0, 1), 1)
        layout.remove_edge(2, 0)
        self.assertEqual((layout.weight(0, 2), layout.weight(2, 0)), (0, 0))
        self.assertNotEqual(layout, self.heavy())

    def test_weights_that_are_none(self):
        layout = self.heavy()
        for weight in (0, -1, 256, 257, 2**64 + 1, 1.5, 0.0, float("nan"), float("inf"), "2", None, {"weight": 2}):
            words = f"(edge 0-1 weighs {weight!r})"
            self.refuses(Refusal.WEIGHT_OUT_OF_RANGE, layout.add_edge, 0, 1, weight, words=words)
            edges = [(0, 1, weight)]
            self.refuses(Refusal.WEIGHT_OUT_OF_RANGE, Layout.from_edges, edges, words=words)
            words = f"(edge 'a'-'b' weighs {weight!r})"
            self.refuses(Refusal.WEIGHT_OUT_OF_RANGE, rostulanda.layout, [("a", "b", weight)], words=words)
            # A weight is asked about last.
            self.refuses(Refusal.EDGE_IS_THERE, layout.add_edge, 0, 2, weight)
            self.refuses(Refusal.SAME_VERTEX, layout.add_edge, 1, 1, weight)
            self.refuses(Refusal.NO_SUCH_VERTEX, layout.add_edge, 0, 4, weight)
        self.assertEqual(layout, self.heavy())
        layout.add_edge(0, 1, 2.0)
        self.assertEqual(layout.weight(1, 0), 2)

    def test_what_cannot_be_compared_is_no_weight(self):
        class Odd:
            def __init__(self, equal=None, shown=None):
                self.equal, self.shown = equal, shown

            def __int__(self):
                return 300

            def __eq__(self, other):
                if self.equal is None:
                    raise ArithmeticError("not to be compared")
                return self.equal

            def __repr__(self):
                return self.shown or object.__repr__(self)

        long = "a long one, " * 9
        for weight, shown in (
            (2 + 0j, "(2+0j)"),
            ([2], "[2]"),
            (Odd(shown="odd"), "odd"),
            (Odd(equal=True, shown="every number"), "every number"),
            (Odd(shown="array([[1, 2],\n       [3, 4]])"), "array([[1, 2], [3, 4]])"),
            (Odd(shown=long), long[:80] + "..."),
            # Python itself does not show it, or all its digits.
            (10**5000, rostulanda._shown(10**5000)),
        ):
            for call, arguments, edge in (
                (self.heavy().add_edge, (0, 1, weight), "0-1"),
                (Layout.from_edges, ([(0, 1, weight)],), "0-1"),
                (rostulanda.layout, ([("a", "b", weight)],), "'a'-'b'"),
                (rostulanda.check_row, ([("a", "b", weight)], "ab", 0), "'a'-'b'"),
            ):
                words = f"(edge {edge} weighs {shown})"
                self.refuses(Refusal.WEIGHT_OUT_OF_RANGE, call, *arguments, words=words)
            answers = rostulanda.play([("add_edge", 0, 1, weight)], CHART).answers
            self.assertEqual(answers, [(Refusal.WEIGHT_OUT_OF_RANGE, (0, 0, 0, 0))])

    def test_true_weighs_1_and_false_is_no_weight(self):
        layout = Layout.from_edges([(0, 1, True)])
        self.assertEqual(layout.weighted_edges(), [(0, 1, 1)])
        words = "(edge 0-1 weighs False)"
        self.refuses(Refusal.WEIGHT_OUT_OF_RANGE, Layout.from_edges, [(0, 1, False)], words=words)
        layout.remove_edge(0, 1)
        self.refuses(Refusal.WEIGHT_OUT_OF_RANGE, layout.add_edge, 0, 1, False, words=words)
        layout.add_edge(0, 1, True)
        self.assertEqual(layout.weight(0, 1), 1)

    def test_weights_are_asked_last(self):
        many = [(i, i + 1) for i in range(64)]
        for wrong in ([("a", "b", 0)], [("a", "b", 2), ("b", "a", 3)]):
            loop = [*wrong, ("c", "c")]
            words = "'c' is joined to itself"
            self.refuses(Refusal.SAME_VERTEX, rostulanda.layout, loop, words=words)
            self.refuses(Refusal.SAME_VERTEX, rostulanda.check_row, loop, "abc", 0, words=words)
            self.refuses(Refusal.NO_ROOM, rostulanda.layout, [*wrong, *many, (0, 0)], words="67 vertices")
            order = ["a", "b", *range(65)]
            self.refuses(Refusal.NO_ROOM, rostulanda.check_row, [*wrong, (0, 0)], order, 0, words="67 vertices")
            self.refuses(Refusal.NO_SUCH_VERTEX, rostulanda.layout, wrong, (), 50, "c", words="'c' is not there")
            self.refuses(Refusal.LIMIT_OUT_OF_RANGE, rostulanda.layout, wrong, (), 0)
            for order, words in (("abb", "a vertex twice"), ("a", "does not hold 'b'")):
                with self.assertRaises(ValueError) as caught:
                    rostulanda.check_row(wrong, order, 0)
                self.assertIn(words, str(caught.exception))

    def test_weights_in_charts(self):
        layout = self.heavy()
        chart = CHART + bytes([0x57, 0, 2, 200, 100])
        self.assertEqual(layout.chart(), chart)
        self.assertEqual(Layout.from_chart(chart), layout)
        self.assertEqual(f"{layout.row(rostulanda.LIMIT)}\n", rostulanda.list_chart(chart))
        ones = CHART + bytes([0x57, 0, 2, 1, 1])
        self.assertEqual(Layout.from_chart(ones).chart(), CHART)
        for refusal, field in (
            (Refusal.CHART_WEIGHTS, [0x57, 0, 1, 5]),
            (Refusal.CHART_WEIGHTS, [0x57, 0, 3, 5, 0, 5]),
            (Refusal.WEIGHT_OUT_OF_RANGE, [0x57, 0, 2, 5, 0]),
            (Refusal.CHART_TAGS, [0x57, 0, 2, 5, 5] * 2),
        ):
            self.refuses(refusal, Layout.from_chart, CHART + bytes(field))

    def test_a_graph6_has_no_weights(self):
        layout = self.heavy()
        self.refuses(Refusal.GRAPH6_WEIGHTS, layout.graph6, words="graph6 has no weights")
        self.refuses(Refusal.GRAPH6_WEIGHTS, layout.export_graph6, bytearray())
        layout.import_graph6(GRAPH6)
        self.assertEqual(layout.weighted_edges(), [(0, 2, 1), (1, 3, 1)])

    def test_weights_are_those_of_the_edges(self):
        for a, b, weight in ((0, 2, 0), (2, 0, 201), (0, 1, 1), (1, 1, 1), (4, 0, 1)):
            layout = self.heavy()
            layout.fields.weights[rostulanda.PLACES * a + b] = weight
            self.assertFalse(layout.is_valid())
            self.refuses(Refusal.INVALID_LAYOUT, layout.count)

    def test_greedy_append_goes_by_weights_at_its_ends(self):
        pairs = list(itertools.combinations(range(4), 2))
        for weights, order in (((1, 1, 1, 1, 1, 1), [2, 0, 1, 3]), ((1, 2, 1, 2, 3, 1), [1, 2, 0, 3])):
            layout = Layout.from_edges(triples(dict(zip(pairs, weights))))
            self.assertEqual(layout.greedy_append(2), layout.count())
            self.assertEqual(layout.order(), order)

    def test_the_carried_count_goes_modulo_2_to_the_64(self):
        layout = self.heavy()
        layout.fields.count = 0
        layout.sift(0)
        self.assertEqual(layout.count(), 2**64 - 20000)

    def test_edges_with_weights(self):
        weights = {("a", "c"): 5, ("b", "d"): 4, ("a", "d"): 1, ("b", "e"): 2}
        row = rostulanda.layout(triples(weights), vertices="abcde")
        self.assertEqual(row.before, crossings("abcde", weights))
        self.assertEqual(row.after, crossings(row.order, weights))
        mixed = [("a", "c", 5), ("d", "b", 4), ("b", "d", 4), ("a", "d"), ("e", "b", 2)]
        self.assertEqual(rostulanda.layout(mixed, vertices="abcde"), row)
        checked = rostulanda.check_row(mixed, row.order, row.after)
        self.assertEqual(checked, (row.after, True, None))

    def test_edges_that_come_again_have_the_same_weight(self):
        for edges in ([("a", "b", 2), ("b", "a", 3)], [("a", "b", 2), ("a", "b")]):
            with self.assertRaises(ValueError) as caught:
                rostulanda.layout(edges)
            self.assertRegex(str(caught.exception), "^edge '[ab]'-'[ab]' comes with two weights, 2 and [13]$")

    def test_rows_with_weights_are_checked(self):
        chance = random.Random(11)
        for n in (4, 7, 10):
            weights = random_weights(chance, n, 0.6)
            order = chance.sample(range(n), n)
            self.checks(weights, order)
            row = rostulanda.layout(triples(weights), vertices=order)
            self.assertIsNone(self.checks(weights, row.order).better)

    def checks(self, weights, order):
        """What check_row says of an order, beside what each move of one vertex gives."""
        counted = crossings(order, weights)
        checked = rostulanda.check_row(triples(weights), order, counted)
        self.assertEqual(checked[:2], (counted, True))

        def reached(u, after):
            moved = [v for v in order if v != u]
            moved.insert(moved.index(after) + 1, u)
            return crossings(moved, weights)

        fewest = {u: min(reached(u, v) for v in order if v != u) for u in order}
        first = next((u for u in order if fewest[u] < counted), None)
        if first is None:
            self.assertIsNone(checked.better)
        else:
            u, after, reduction = checked.better
            self.assertEqual((u, counted - reduction), (first, fewest[first]))
            self.assertEqual(reached(u, after), fewest[first])
        return checked

    def test_edges_by_themselves_have_no_attribute(self):
        with self.assertRaises(ValueError) as caught:
            rostulanda.layout([("a", "b")], weight="weight")
        self.assertIn("triples with a weight", str(caught.exception))

    def test_what_has_no_last_one_has_no_weight(self):
        for edge in ({"a", "b", 5}, frozenset(["a", "b", 5]), {"a": 0, "b": 0, 5: 0}):
            with self.assertRaises(ValueError) as caught:
                rostulanda.layout([edge])
            words = "^an edge is two vertices, or a tuple of two vertices and a weight, not .*$"
            self.assertRegex(str(caught.exception), words)
        row = rostulanda.layout([{"a", "b"}, frozenset("bc")])
        self.assertEqual((row.vertices, row.edges), (3, 2))

    def test_a_mapping_of_edges_is_no_list_of_them(self):
        for given in ({("a", "b"): 5}, Counter([("a", "b")]), {"a": ["b"]}, {}):
            for call in (lambda: rostulanda.layout(given), lambda: rostulanda.check_row(given, "ab", 0)):
                with self.assertRaises(ValueError) as caught:
                    call()
                words = "edges with weights are tuples (a, b, weight), not a mapping"
                self.assertEqual(str(caught.exception), words)

    def test_a_key_of_a_multigraph_is_no_weight(self):
        class Edges(abc.Set, abc.Mapping):
            """An edge view as networkx has it of a multigraph: its edges with their keys, each with its attributes."""

            held = {("a", "b", 7): {}, ("a", "b", 9): {}, ("b", "c", "key"): {}}

            def __iter__(self):
                return iter(self.held)

            def __len__(self):
                return len(self.held)

            def __getitem__(self, edge):
                return self.held[edge]

        self.assertEqual(rostulanda.layout(Edges()), rostulanda.layout(["ab", "bc"]))
        self.assertEqual(rostulanda.check_row(Edges(), "abc", 0), (0, True, None))

    @unittest.skipIf(networkx is None, "networkx is not installed")
    def test_edges_of_a_networkx_multigraph(self):
        for kind in (networkx.MultiGraph, networkx.MultiDiGraph):
            graph = kind()
            for edge, key in ((("a", "c"), 5), (("b", "d"), 4), (("a", "c"), 6), (("b", "d"), "key")):
                graph.add_edge(*edge, key=key, weight=3)
            for given in (graph, graph.edges, graph.edges()):
                self.assertEqual(rostulanda.layout(given, vertices="abcd").before, 1)
            triples = graph.edges(data="weight", default=1)
            self.assertEqual(rostulanda.layout(triples, vertices="abcd").before, 9)

    @unittest.skipIf(networkx is None, "networkx is not installed")
    def test_an_edge_of_a_networkx_graph_with_two_weights(self):
        parallel = networkx.MultiGraph()
        parallel.add_edge("a", "b", weight=2)
        parallel.add_edge("a", "b", weight=3)
        directed = networkx.DiGraph()
        directed.add_edge("a", "b", weight=2)
        directed.add_edge("b", "a", weight=3)
        lacking = networkx.DiGraph()
        lacking.add_edge("a", "b", weight=2)
        lacking.add_edge("b", "a")
        for graph, two in ((parallel, "2 and 3"), (directed, "2 and 3"), (lacking, "2 and 1")):
            for call in (
                lambda: rostulanda.layout(graph, weight="weight"),
                lambda: rostulanda.check_row(graph, "ab", 0, weight="weight"),
            ):
                with self.assertRaises(ValueError) as caught:
                    call()
                self.assertRegex(str(caught.exception), f"^edge '[ab]'-'[ab]' comes with two weights, {two}$")
            self.assertEqual(rostulanda.layout(graph).edges, 1)

    def test_an_attribute_that_no_edge_has(self):
        class Path:
            """As networkx has a graph, of which some edges have an attribute."""

            costs = {("a", "c"): 5, ("b", "d"): None}

            def nodes(self):
                return "abcd"

            def edges(self, data=None, default=None):
                if data is None:
                    return list(self.costs)
                return [(*edge, cost if data == "cost" and cost else default) for edge, cost in self.costs.items()]

        self.assertEqual(rostulanda.layout(Path(), weight="cost").before, 5)
        for call in (
            lambda: rostulanda.layout(Path(), weight="coat"),
            lambda: rostulanda.check_row(Path(), "abcd", 1, weight="coat"),
        ):
            with self.assertRaises(ValueError) as caught:
                call()
            self.assertEqual(str(caught.exception), "no edge of the graph has an attribute 'coat'")
        Path.costs = {}
        self.assertEqual(rostulanda.layout(Path(), weight="coat").before, 0)

    @unittest.skipIf(networkx is None, "networkx is not installed")
    def test_the_weights_of_a_networkx_graph(self):
        graph = networkx.Graph()
        graph.add_weighted_edges_from([("a", "c", 5), ("b", "d", 4), ("a", "d", 3)])
        graph.add_edge("b", "e", cost=7)
        graph.add_node("f")
        given = {"weight": (5, 4, 3, 1), "cost": (1, 1, 1, 7), None: (1, 1, 1, 1)}
        kinds = graph, graph.to_directed(), networkx.MultiGraph(graph)
        for kind, (name, weights) in itertools.product(kinds, given.items()):
            due = dict(zip([("a", "c"), ("b", "d"), ("a", "d"), ("b", "e")], weights))
            row = rostulanda.layout(kind, weight=name)
            self.assertEqual(row.before, crossings(list(kind), due))
            self.assertEqual(row.after, crossings(row.order, due))
            checked = rostulanda.check_row(kind, row.order, row.after, weight=name)
            self.assertEqual(checked, (row.after, True, None))
        by_triples = rostulanda.layout(graph.edges(data="weight", default=1), vertices=graph)
        self.assertEqual(by_triples, rostulanda.layout(graph, weight="weight"))
        graph.add_edge("a", "c", weight=0.5)
        words = "(edge 'a'-'c' weighs 0.5)"
        call = lambda: rostulanda.layout(graph, weight="weight")
        self.refuses(Refusal.WEIGHT_OUT_OF_RANGE, call, words=words)
        graph.add_edge("a", "c", weight=None)
        self.refuses(Refusal.WEIGHT_OUT_OF_RANGE, call, words="weighs None")
        with self.assertRaises(ValueError) as caught:
            rostulanda.layout(graph, weight="wieght")
        self.assertIn("no edge of the graph has an attribute 'wieght'", str(caught.exception))
        graph.remove_edges_from(list(graph.edges))
        self.assertEqual(rostulanda.layout(graph, weight="wieght").edges, 0)


class GraphTest(unittest.TestCase):
    def test_any_hashable_vertex(self):
        row = rostulanda.layout([("a", ("c", 1)), ("b", 4.5), (("c", 1), "a")])
        self.assertEqual((row.vertices, row.edges, row.after, row.converged), (4, 2, 0, True))
        self.assertEqual(set(row.order), {"a", "b", ("c", 1), 4.5})

    def test_the_order_to_begin_with(self):
        edges = [("a", "c"), ("b", "d")]
        self.assertEqual(rostulanda.layout(edges, vertices="abcd").before, 1)
        self.assertEqual(rostulanda.layout(edges, vertices="acbd").before, 0)
        self.assertEqual(rostulanda.layout(edges, vertices="abcde").vertices, 5)
        self.assertEqual(rostulanda.layout([]).order, [])
        laid = rostulanda.layout(edges, vertices="abcd", start="c")
        self.assertEqual((laid.before, laid.rounds), (0, 1))

    def test_a_row_with_and_without_a_limit(self):
        edges = [("a", "c"), ("b", "d")]
        for limit, rounds, converged in ((1, 1, False), (2, 2, True), (None, 2, True)):
            row = rostulanda.layout(edges, vertices="abcd", limit=limit)
            self.assertEqual((row.after, row.rounds, row.converged), (0, rounds, converged))

    def test_what_is_refused(self):
        for edges, start, code, words in (
            ([("a", "a")], None, 13, "'a' is joined to itself"),
            ([(i, i + 1) for i in range(64)], None, 16, "65 vertices"),
            ([("a", "b")], "c", 12, "'c' is not there"),
        ):
            with self.assertRaises(Refused) as caught:
                rostulanda.layout(edges, start=start)
            self.assertEqual(caught.exception.code, code)
            self.assertIn(words, str(caught.exception))

    def test_a_graph_that_names_its_vertices(self):
        class Triangle:
            """As networkx has a graph, with an isolated vertex and an edge in both directions."""

            def nodes(self):
                return "dcba"

            def edges(self):
                return [("a", "b"), ("b", "c"), ("c", "a"), ("a", "c")]

        row = rostulanda.layout(Triangle())
        self.assertEqual((row.vertices, row.edges, row.order), (4, 3, ["d", "c", "b", "a"]))
        self.assertEqual(rostulanda.layout(Triangle(), vertices="ab").order, ["a", "b", "d", "c"])
        self.assertEqual(rostulanda.layout(Triangle().edges()).order, ["a", "b", "c"])

    @unittest.skipIf(networkx is None, "networkx is not installed")
    def test_a_networkx_graph_goes_in_with_one_line(self):
        petersen = networkx.petersen_graph()
        isolated = petersen.copy()
        isolated.add_nodes_from(["x", "y"])
        graphs = petersen, isolated, networkx.karate_club_graph().to_directed(), networkx.MultiGraph(petersen)
        for graph in graphs:
            undirected = networkx.Graph(graph.to_undirected())
            for given, vertices in ((graph, ()), (graph.edges(), graph)):
                row = rostulanda.layout(given, vertices)
                self.assertEqual(set(row.order), set(graph))
                self.assertEqual((row.vertices, row.edges), (len(graph), undirected.number_of_edges()))
                self.assertEqual(row.before, len(crossing_pairs(list(graph), undirected.edges())))
                self.assertEqual(row.after, len(crossing_pairs(row.order, undirected.edges())))
                self.assertTrue(row.converged)
        self.assertEqual(rostulanda.layout(networkx.Graph()).order, [])

    @unittest.skipIf(networkx is None, "networkx is not installed")
    def test_numbers_are_those_of_the_graph6(self):
        petersen = networkx.petersen_graph()
        due = Layout.from_graph6(networkx.to_graph6_bytes(petersen)).row()
        self.assertEqual(rostulanda.layout(petersen), due)
        self.assertEqual((due.before, rostulanda.layout(petersen.edges()).before), (25, 33))

    @unittest.skipIf(networkx is None, "networkx is not installed")
    def test_a_graph6_file_of_networkx(self):
        petersen = networkx.petersen_graph()
        with tempfile.NamedTemporaryFile() as file:
            networkx.write_graph6(petersen, file.name)
            written = file.read()
        self.assertTrue(written.startswith(b">>graph6<<") and written.endswith(b"\n"))
        self.assertEqual(Layout.from_graph6(written).edges(), sorted(petersen.edges()))

    @unittest.skipIf(networkx is None, "networkx is not installed")
    def test_a_graph6_is_that_of_networkx(self):
        chance = random.Random(5)
        for n, density in itertools.product(range(rostulanda.PLACES + 1), (0, 0.3, 1)):
            graph = networkx.gnp_random_graph(n, density, seed=n)
            graph6 = networkx.to_graph6_bytes(graph, header=False).rstrip(b"\n")
            self.assertEqual(Layout.from_graph6(graph6), Layout.from_edges(graph.edges(), n=n))
            order = chance.sample(range(n), n)
            exported = Layout.from_edges(graph.edges(), n=n, order=order).graph6()
            self.assertEqual(exported, graph6)
            again = networkx.from_graph6_bytes(exported)
            self.assertTrue(networkx.utils.graphs_equal(again, graph))


class CheckRowTest(unittest.TestCase):
    def test_the_first_chart(self):
        edges = [(0, 2), (1, 3)]
        better = rostulanda.Move(vertex=0, after=1, reduction=1)
        self.assertEqual(rostulanda.check_row(edges, [0, 1, 2, 3], 1), (1, True, better))
        self.assertEqual(rostulanda.check_row(edges, [0, 1, 2, 3], 0), (1, False, better))
        self.assertEqual(rostulanda.check_row(edges, [1, 0, 2, 3], 0), (0, True, None))
        self.assertEqual(rostulanda.check_row([], [], 0), (0, True, None))

    def test_any_hashable_vertex(self):
        edges = [("a", "c"), ("b", "d"), ("c", "a")]
        checked = rostulanda.check_row(edges, "dabce", 1)
        self.assertEqual(checked, (1, True, ("d", "a", 1)))
        self.assertEqual(rostulanda.check_row(edges, "adbce", 0), (0, True, None))

    def test_random_orders(self):
        chance = random.Random(7)
        for n in (2, 5, 9, 14):
            edges = [pair for pair in itertools.combinations(range(n), 2) if chance.random() < 0.5]
            order = chance.sample(range(n), n)
            crossings = len(crossing_pairs(order, edges))
            # Every move of one vertex, in the order's sequence.
            fewest = {}
            for u, other in itertools.permutations(order, 2):
                moved = [v for v in order if v != u]
                moved.insert(moved.index(other) + 1, u)
                reached = len(crossing_pairs(moved, edges))
                fewest[u] = min(fewest.get(u, crossings), reached)
            first = next((u for u in order if fewest[u] < crossings), None)
            checked = rostulanda.check_row(edges, order, crossings)
            self.assertEqual(checked[:2], (crossings, True))
            if first is None:
                self.assertIsNone(checked.better)
            else:
                u, after, reduction = checked.better
                self.assertEqual((u, reduction), (first, crossings - fewest[first]))
                moved = [v for v in order if v != u]
                moved.insert(moved.index(after) + 1, u)
                self.assertEqual(len(crossing_pairs(moved, edges)), fewest[first])

    def test_a_row_of_layout_is_right(self):
        edges = list(itertools.combinations(range(7), 2))[::2]
        row = rostulanda.layout(edges)
        self.assertEqual(rostulanda.check_row(edges, row.order, row.after), (row.after, True, None))

    def test_what_is_no_row(self):
        for edges, order, words in (
            ([(0, 1)], [0, 1, 0], "a vertex twice"),
            ([(0, 1)], [0], "does not hold 1"),
            ([(1, 1)], [0, 1], "joined to itself"),
            ([], range(65), "64 vertices already"),
        ):
            with self.assertRaises(ValueError) as caught:
                rostulanda.check_row(edges, order, 0)
            self.assertIn(words, str(caught.exception))


class ChartAndListTest(unittest.TestCase):
    def test_a_row_is_what_ringlist_prints(self):
        row = Layout.from_chart(CHART).row(rostulanda.LIMIT)
        self.assertEqual(f"{row}\n", rostulanda.list_chart(CHART))
        self.assertEqual(row.order, [1, 0, 2, 3])
        self.assertTrue(str(Layout().row()).endswith("\norder"))
        self.assertEqual(rostulanda.list_chart(b""), "refused 3\n")

    def test_fifty_rounds_are_not_always_enough(self):
        chart = CHARTS.joinpath("many-rounds.chart").read_bytes()
        layout = Layout.from_chart(chart)
        spent = layout.copy()
        row = spent.row(rostulanda.LIMIT)
        self.assertEqual(f"{row}\n", rostulanda.list_chart(chart))
        self.assertEqual((row.before, row.after, row.rounds, row.converged), (434_951, 126_666, 50, False))
        run = layout.copy().converge()
        self.assertEqual((run.rounds, run.converged), (52, True))
        row = layout.copy().row()
        self.assertEqual((row.before, row.after, row.rounds, row.converged), (434_951, 126_661, 52, True))
        edges, vertices = layout.weighted_edges(), layout.order()
        self.assertEqual(rostulanda.layout(edges, vertices), row)
        self.assertEqual(rostulanda.layout(edges, vertices, rostulanda.LIMIT).rounds, 50)
        # Going on leads to the same order.
        rest = spent.row()
        self.assertEqual((rest.rounds, rest.after, rest.order), (2, row.after, row.order))

    def test_a_row_goes_by_weights(self):
        chart = CHARTS.joinpath("weighted.chart").read_bytes()
        layout = Layout.from_chart(chart)
        row = layout.copy().row(rostulanda.LIMIT)
        self.assertEqual(f"{row}\n", rostulanda.list_chart(chart))
        self.assertEqual((row.before, row.after, row.rounds, row.order), (18, 3, 2, [1, 0, 2, 3, 4]))
        self.assertEqual(rostulanda.layout(layout.weighted_edges(), vertices=range(5)), row)
        # Without weights its order cannot be bettered.
        row = rostulanda.layout(layout.edges(), vertices=range(5))
        self.assertEqual((row.before, row.after, row.rounds), (1, 1, 1))

    def test_a_list_is_its_calls_one_after_another(self):
        calls = [
            ("add_vertex",),
            ("add_edge", 4, 1),
            ("add_edge", 4, 4),
            ("add_edge", 4, 2, 255),
            ("add_edge", 4, 3, 0),
            ("add_edge", 4, 3, 257),
            ("move_after", 4, 0),
            ("sift", 2),
            ("sifting_round",),
            ("greedy_append", 3),
            ("remove_edge", 4, 1),
            ("converge", 50),
        ]
        played = rostulanda.play(calls, CHART)
        self.assertEqual(rostulanda.play(calls, graph6=GRAPH6), played)
        layout = Layout.from_chart(CHART)
        for (name, *named), answer in zip(calls, played.answers):
            try:
                value, code = getattr(layout, name)(*named), 0
            except Refused as refused:
                value, code = None, refused.code
            numbers = value if isinstance(value, tuple) else (value or 0,)
            self.assertEqual(answer, (code, (tuple(map(int, numbers)) + (0, 0, 0))[:4]))
        self.assertEqual(played.layout, layout)
        self.assertEqual(len(played.answers), len(calls))

    def test_calls_that_are_none(self):
        for call, words in (
            (("sift",), "('sift',) names 0 numbers: the call is ('sift', u)"),
            (("sift", 0, 1), "names 2 numbers"),
            (("add_vertex", 0), "the call is ('add_vertex',)"),
            (("add_edge", 0), "the call is ('add_edge', a, b) or ('add_edge', a, b, weight)"),
            (("add_edge", 0, 1, 2, 3), "names 4 numbers"),
            (["converge"], "the call is ('converge', limit)"),
            (("shift", 0), "there is no call 'shift': the calls are add_vertex, add_edge,"),
            (("count",), "there is no call 'count'"),
            ("add_vertex", "not 'add_vertex'"),
            ((), "not ()"),
        ):
            with self.assertRaises(ValueError) as caught:
                rostulanda.play([("add_vertex",), call])
            self.assertIn(words, str(caught.exception))
        with self.assertRaises(TypeError):
            rostulanda.play([("sift", "0")])

    def test_starts_of_lists(self):
        self.assertEqual(rostulanda.play([]), (Layout(), []))
        self.assertEqual(rostulanda.play([], CHART).layout, Layout.from_chart(CHART))
        self.assertEqual(rostulanda.play([], graph6=GRAPH6).layout, Layout.from_graph6(GRAPH6))
        for start, refusal in (("chart", Refusal.CHART_FIELDS), ("graph6", Refusal.GRAPH6_SIZE)):
            with self.assertRaises(Refused) as caught:
                rostulanda.play([("add_vertex",)], **{start: b"\x01"})
            self.assertEqual(caught.exception.code, refusal)
        with self.assertRaises(ValueError):
            rostulanda.play([], CHART, GRAPH6)


class LibraryTest(unittest.TestCase):
    def test_a_library_with_layouts_of_another_size_is_noticed(self):
        size = ctypes.sizeof(rostulanda.Fields)
        for held, fits in ((size - 4096, False), (size, True), (size + 8, False)):

            class Library:
                """Its layouts have so many bytes; the chart is refused."""

                def rl_read_chart(self, fields, chart, length):
                    ctypes.memset(ctypes.addressof(fields), 0, held)
                    return Refusal.CHART_TAGS

            self.assertEqual(rostulanda._fits(Library()), fits)


class WheelTest(unittest.TestCase):
    def test_the_wheel_has_module_type_hints_and_library(self):
        with tempfile.TemporaryDirectory() as folder:
            name = wheel_of_library.build_wheel(folder)
            with zipfile.ZipFile(pathlib.Path(folder, name)) as wheel:
                held = {path: wheel.read(path) for path in wheel.namelist()}
        self.assertEqual(held["rostulanda/__init__.py"], pathlib.Path(rostulanda.__file__).read_bytes())
        self.assertEqual(held["rostulanda/py.typed"], b"")
        self.assertTrue(held["rostulanda/librostulanda.so"].startswith(b"\x7fELF"))
        (record,) = [path for path in held if path.endswith("/RECORD")]
        listed = [line.split(",")[0] for line in held[record].decode().splitlines()]
        self.assertEqual(listed, list(held))


if __name__ == "__main__":
    unittest.main()
