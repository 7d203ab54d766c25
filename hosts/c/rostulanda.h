/*
 * Rostulanda: circular layouts with few crossings, proved.
 *
 * Vertices stand round a circle and edges are chords. A host holds one layout
 * and lends it to each call, which changes it in place. hosts/README.md says how
 * the library is built, installed and linked. x86-64 only.
 *
 * The words are those of graph drawing. Document 01's stand in brackets:
 * layout (ring), vertex (device), edge (link), valid (whole).
 *
 * What holds for every call:
 *
 * - A call answers a refusal code, RL_ACCEPTED or the first question that was
 *   answered "no". A refused call leaves the layout and every lent buffer or
 *   table as they came; its other numbers are 0 and its bools false. Only a
 *   refused rl_read_chart or rl_import_graph6 leaves the empty layout: a host
 *   that is to keep the one that it has reads into another.
 * - Every pointer is non-NULL and aligned for its type, also where the length
 *   beside it is 0. A length counts elements, not bytes.
 * - Two things lent to one call do not overlap.
 * - The fields of a lent layout may hold anything at all: a layout that is not
 *   valid is refused with RL_INVALID_LAYOUT. Only its count is not examined.
 * - Each edge has a weight from 1 to 255, and a crossing counts the product of
 *   its two edges' weights (document 02, Note 8): wherever crossings are counted
 *   or compared, it is by the sum of these products, at most 41,315,324,400.
 *   Where every edge weighs 1 that is the number of crossings.
 * - A call keeps nothing and allocates nothing. Two calls on two layouts may
 *   run at the same time; two on one layout, only if both take it as const.
 */
#ifndef ROSTULANDA_H
#define ROSTULANDA_H

#include <stdbool.h>
#include <stddef.h>
#include <stdint.h>

#ifdef __cplusplus
extern "C" {
#endif

/* The most vertices, and the places of an order. */
#define RL_PLACES 64

/* Every chart of more bytes is refused. */
#define RL_CHART_BYTES 8192

/* The most bytes that rl_write_chart writes, and that an accepted chart has. */
#define RL_WRITTEN_CHART_BYTES 6125

/* The most bytes that rl_export_graph6 writes. */
#define RL_GRAPH6_BYTES 340

/* The most edges, and the most entries that rl_edge_crossings writes. */
#define RL_MOST_EDGES 2016

/* The largest limit of rl_converge. */
#define RL_MOST_ROUNDS 1000

/* The least buffer for rl_list_chart. */
#define RL_LISTING_BYTES 1024

/* The numbers of each call that rl_play reads, and of each answer that it writes. */
#define RL_CALL_NUMBERS 4
#define RL_ANSWER_NUMBERS 5

/* Refusal codes (document 01: the numbers of the questions). */
enum rl_refusal {
    RL_ACCEPTED = 0,

    /* Reading a chart. Tags are hexadecimal. */
    RL_CHART_TOO_LONG = 1,
    RL_CHART_FIELDS = 2,
    RL_CHART_TAGS = 3,
    RL_CHART_VERTICES = 4,
    RL_CHART_ODD_EDGES = 5,
    RL_CHART_EDGE_ENDS = 6,
    RL_CHART_EDGE_TWICE = 7,
    RL_CHART_ORDER = 8,

    /* Calls on a layout. */
    RL_INVALID_LAYOUT = 11,
    RL_NO_SUCH_VERTEX = 12,
    RL_SAME_VERTEX = 13,
    RL_EDGE_IS_THERE = 14,
    RL_NO_SUCH_EDGE = 15,
    RL_NO_ROOM = 16,
    RL_LIMIT_OUT_OF_RANGE = 17,
    RL_BUFFER_TOO_SHORT = 18,
    RL_WRITE_BUFFER_TOO_SHORT = 19,

    /* Importing a graph6. */
    RL_GRAPH6_SIZE = 20,
    RL_GRAPH6_DATA = 21,
    RL_GRAPH6_PADDING = 22,

    /* The crossings of every edge. */
    RL_TABLE_TOO_SHORT = 23,

    /* Weights: of a chart, of a chart or a call, and of what is exported. */
    RL_CHART_WEIGHTS = 24,
    RL_WEIGHT_OUT_OF_RANGE = 25,
    RL_GRAPH6_WEIGHTS = 26
};

/* The question that a refused call answered "no". */
static inline const char *rl_refusal_text(uint8_t refusal)
{
    switch (refusal) {
    case RL_ACCEPTED: return "accepted";
    case RL_CHART_TOO_LONG: return "is the chart at most 8,192 bytes long?";
    case RL_CHART_FIELDS: return "does the chart divide exactly into fields, each header and body complete?";
    case RL_CHART_TAGS: return "are the tags 44, 4C, 52, or 44, 4C, 52, 57, each once, in that sequence?";
    case RL_CHART_VERTICES: return "is the body of field 44 one byte, at most 64?";
    case RL_CHART_ODD_EDGES: return "has the body of field 4C an even length?";
    case RL_CHART_EDGE_ENDS: return "are the ends of each edge below n and different?";
    case RL_CHART_EDGE_TWICE: return "is each edge written only once, either way round?";
    case RL_CHART_ORDER: return "has the body of field 52 n bytes, holding each vertex once?";
    case RL_INVALID_LAYOUT: return "is the layout valid?";
    case RL_NO_SUCH_VERTEX: return "is each named vertex below n?";
    case RL_SAME_VERTEX: return "do the two vertices differ?";
    case RL_EDGE_IS_THERE: return "is there no edge between the two vertices yet?";
    case RL_NO_SUCH_EDGE: return "is there an edge between the two vertices?";
    case RL_NO_ROOM: return "is there room for another (there are 64 vertices already)?";
    case RL_LIMIT_OUT_OF_RANGE: return "is the limit from 1 to 1000?";
    case RL_BUFFER_TOO_SHORT: return "is the lent buffer long enough?";
    case RL_WRITE_BUFFER_TOO_SHORT: return "has the buffer as many bytes as are written?";
    case RL_GRAPH6_SIZE: return "does the graph6 start with a size from 0 to 64, in its shortest form?";
    case RL_GRAPH6_DATA: return "has the graph6 as many bytes as its size asks for, each from 63 to 126?";
    case RL_GRAPH6_PADDING: return "are the padding bits of the graph6 all 0?";
    case RL_TABLE_TOO_SHORT: return "has the table an entry for each edge?";
    case RL_CHART_WEIGHTS: return "has the body of field 57 one byte for each edge?";
    case RL_WEIGHT_OUT_OF_RANGE: return "is each weight a whole number from 1 to 255?";
    case RL_GRAPH6_WEIGHTS: return "does each edge weigh 1 (a graph6 has no weights)?";
    default: return "unknown";
    }
}

/*
 * A circular layout (document 01: ring) of n vertices, 0 to n - 1.
 *
 * The first n places of the order hold the vertices clockwise, each once; the
 * others are 0. Bit w of adjacency[v] (neighbour word) is set exactly when an
 * edge joins v and w. weights[RL_PLACES * v + w] is the weight of that edge, the
 * same as weights[RL_PLACES * w + v], and 0 exactly where no edge joins them.
 * count is the carried count, modulo 2^64: from rl_empty, rl_read_chart or
 * rl_import_graph6 on it is the crossings. All bytes 0 is the empty layout.
 */
typedef struct rl_layout {
    size_t n;
    uint8_t order[RL_PLACES];
    uint64_t adjacency[RL_PLACES];
    uint8_t weights[RL_PLACES * RL_PLACES];
    uint64_t count;
} rl_layout;

/* An edge (document 01: link), the lower end first. */
typedef struct rl_edge {
    size_t low;
    size_t high;
} rl_edge;

/* The number of the added vertex. */
typedef struct rl_vertex {
    uint8_t refusal;
    size_t vertex;
} rl_vertex;

/* The crossings at the ends taken by greedy append: all of those that the
 * layout has afterwards. */
typedef struct rl_tally {
    uint8_t refusal;
    uint64_t tally;
} rl_tally;

/* The reduction (document 01: saving), crossings before less crossings after, and
 * how many of the n - 1 candidate places have the least crossings, the present
 * one being a candidate; 0 below two vertices (document 02, Note 3). */
typedef struct rl_sifted {
    uint8_t refusal;
    uint64_t reduction;
    uint32_t optima;
} rl_sifted;

/* The summed reduction, how many vertices moved, and the summed optima. */
typedef struct rl_round {
    uint8_t refusal;
    uint64_t reduction;
    uint32_t moved;
    uint32_t optima;
} rl_round;

/* The summed reduction, the rounds run, the last one included, whether that one
 * moved no vertex (document 01: settled), and the summed optima of all rounds. */
typedef struct rl_convergence {
    uint8_t refusal;
    uint64_t reduction;
    uint32_t rounds;
    bool converged;
    uint32_t optima;
} rl_convergence;

/* The carried count. */
typedef struct rl_counted {
    uint8_t refusal;
    uint64_t count;
} rl_counted;

/* Two edges that cross, if found. Not found and accepted: no two edges cross. */
typedef struct rl_crossing {
    uint8_t refusal;
    bool found;
    rl_edge first;
    rl_edge second;
} rl_crossing;

/* How many bytes the written chart or graph6 has. */
typedef struct rl_written {
    uint8_t refusal;
    size_t length;
} rl_written;

/* How many edges there are, and so how many entries of the table were written. */
typedef struct rl_edges_counted {
    uint8_t refusal;
    size_t edges;
} rl_edges_counted;

/* A list of calls played: the layout at the end, and how many calls it had. */
typedef struct rl_played {
    uint8_t refusal;
    rl_layout layout;
    size_t calls;
} rl_played;

/* The library was compiled for just these sizes and offsets. */
#ifdef __cplusplus
#define RL_HOLDS(fact) static_assert(fact, #fact)
#else
#define RL_HOLDS(fact) _Static_assert(fact, #fact)
#endif
#define RL_SIZE(type, size) RL_HOLDS(sizeof(type) == (size))
#define RL_AT(type, field, offset) RL_HOLDS(offsetof(type, field) == (offset))
RL_SIZE(rl_layout, 4688);
RL_AT(rl_layout, n, 0);
RL_AT(rl_layout, order, 8);
RL_AT(rl_layout, adjacency, 72);
RL_AT(rl_layout, weights, 584);
RL_AT(rl_layout, count, 4680);
RL_SIZE(rl_edge, 16);
RL_AT(rl_edge, low, 0);
RL_AT(rl_edge, high, 8);
RL_SIZE(rl_vertex, 16);
RL_AT(rl_vertex, refusal, 0);
RL_AT(rl_vertex, vertex, 8);
RL_SIZE(rl_tally, 16);
RL_AT(rl_tally, refusal, 0);
RL_AT(rl_tally, tally, 8);
RL_SIZE(rl_sifted, 24);
RL_AT(rl_sifted, refusal, 0);
RL_AT(rl_sifted, reduction, 8);
RL_AT(rl_sifted, optima, 16);
RL_SIZE(rl_round, 24);
RL_AT(rl_round, refusal, 0);
RL_AT(rl_round, reduction, 8);
RL_AT(rl_round, moved, 16);
RL_AT(rl_round, optima, 20);
RL_SIZE(rl_convergence, 32);
RL_AT(rl_convergence, refusal, 0);
RL_AT(rl_convergence, reduction, 8);
RL_AT(rl_convergence, rounds, 16);
RL_AT(rl_convergence, converged, 20);
RL_AT(rl_convergence, optima, 24);
RL_SIZE(rl_counted, 16);
RL_AT(rl_counted, refusal, 0);
RL_AT(rl_counted, count, 8);
RL_SIZE(rl_crossing, 40);
RL_AT(rl_crossing, refusal, 0);
RL_AT(rl_crossing, found, 1);
RL_AT(rl_crossing, first, 8);
RL_AT(rl_crossing, second, 24);
RL_SIZE(rl_written, 16);
RL_AT(rl_written, refusal, 0);
RL_AT(rl_written, length, 8);
RL_SIZE(rl_edges_counted, 16);
RL_AT(rl_edges_counted, refusal, 0);
RL_AT(rl_edges_counted, edges, 8);
RL_SIZE(rl_played, 4704);
RL_AT(rl_played, refusal, 0);
RL_AT(rl_played, layout, 8);
RL_AT(rl_played, calls, 4696);
#undef RL_AT
#undef RL_SIZE
#undef RL_HOLDS

/* ---- where a layout comes from ---- */

/* The layout without vertices. */
rl_layout rl_empty(void);

/* Reads a chart, and its true crossings with it. Without field 57 every edge
 * weighs 1. Whatever the layout held is gone. Refused: 1 to 8, then 24, 25; the
 * layout is then the empty one. */
uint8_t rl_read_chart(rl_layout *l, const uint8_t *chart, size_t length);

/* Imports a graph in graph6, one without header or line end: the order 0, 1, 2
 * and so on, every edge of weight 1, and its true crossings (document 02, Note
 * 4). Whatever the layout held is gone. Refused: 20, 21, 22; the layout is then
 * the empty one. */
uint8_t rl_import_graph6(rl_layout *l, const uint8_t *graph6, size_t length);

/* ---- calls that change a layout; each asks first whether it is valid (11) ---- */

/* Adds vertex n, without edges, at the end of the order (document 01: add).
 * Refused: 16. */
rl_vertex rl_add_vertex(rl_layout *l);

/* Joins a and b by an edge of this weight (link). Refused: 12, 13, 14, and 25
 * for a weight of 0. */
uint8_t rl_add_edge(rl_layout *l, size_t a, size_t b, uint8_t weight);

/* Takes the edge between a and b away, and its weight (unlink). Refused: 12, 13,
 * 15. */
uint8_t rl_remove_edge(rl_layout *l, size_t a, size_t b);

/* Takes a out of the order and puts it directly after b (move a behind b).
 * Refused: 12, 13. */
uint8_t rl_move_after(rl_layout *l, size_t a, size_t b);

/* Makes a new order by greedy append from a first vertex (lay from s). Vertices
 * are chosen by their numbers of edges, and go to the end with fewer crossings.
 * Those without edges stand last, in rising number, but for the first. The tally
 * is the crossings of the new order, so that nobody has to count them. Refused:
 * 12. */
rl_tally rl_greedy_append(rl_layout *l, size_t start);

/* Moves u to where the crossings are fewest, of several places to the first
 * clockwise; where none has fewer than its own, u stays (sift). Refused: 12. */
rl_sifted rl_sift(rl_layout *l, size_t u);

/* A sifting round: sifts each vertex once, in rising number (round). */
rl_round rl_sifting_round(rl_layout *l);

/* Sifting rounds until one moves no vertex, or limit of them are run (settle).
 * Converged: a local minimum, no move of one vertex lowers the crossings. A limit
 * that is larger than the crossings is enough: it ends converged. Whatever the
 * limit, at most one round more than there are crossings is run (document 02,
 * Note 9). These are the crossings themselves, half of the sum of what
 * rl_edge_crossings writes, not a carried count that may be wrong. Refused: 17. */
rl_convergence rl_converge(rl_layout *l, uint32_t limit);

/* ---- calls that only read; all but the last ask first whether it is valid (11) ---- */

/* The carried count. */
rl_counted rl_count(const rl_layout *l);

/* Writes the order to the first n bytes of the buffer; the others keep what
 * they hold. Refused: 18, for fewer than n bytes. */
uint8_t rl_order(const rl_layout *l, uint8_t *buffer, size_t length);

/* The first two edges that cross, edges sorted by lower, then higher end,
 * whatever they weigh (the shown crossing pair). */
rl_crossing rl_first_crossing(const rl_layout *l);

/* Writes the layout's chart to the start of the buffer, edges lower end first
 * and sorted by lower, then higher end, and the weights in this sequence exactly
 * where some edge does not weigh 1; the bytes beyond it keep what they hold. The
 * carried count is not in it: read again, the chart gives this layout with its
 * true crossings. Refused: 19, for fewer bytes than the chart has. */
rl_written rl_write_chart(const rl_layout *l, uint8_t *buffer, size_t length);

/* Writes the layout's graph6, without header or line end, to the start of the
 * buffer; the bytes beyond it keep what they hold. Neither the order nor the
 * carried count is in it. Refused: 26 where some edge does not weigh 1, and then
 * 19, for fewer bytes than the graph6 has. */
rl_written rl_export_graph6(const rl_layout *l, uint8_t *buffer, size_t length);

/* Writes for each edge the crossings that it takes part in, to the start of the
 * table, edges sorted by lower, then higher end; the entries beyond them keep what
 * they hold (document 02, Note 7). The carried count is not looked at: the numbers'
 * sum is twice the crossings. Refused: 23, for fewer entries than edges. */
rl_edges_counted rl_edge_crossings(const rl_layout *l, uint64_t *table, size_t length);

/* Whether the layout is valid (whole): all of the fields as rl_layout says,
 * weights too, but for the count. Of vertices that are not there the words and
 * weights are 0. */
bool rl_is_valid(const rl_layout *l);

/* ---- charts and lists of calls, no layout lent ---- */

/* Writes what the program ringlist prints for a chart, seven lines or one for a
 * refused chart, and answers how many bytes that is; the bytes behind them keep
 * what they hold. A buffer of fewer than RL_LISTING_BYTES is left alone, and
 * the answer is 0. */
size_t rl_list_chart(const uint8_t *chart, size_t length, uint8_t *out, size_t out_length);

/* The first of the numbers of a call in a list. */
enum rl_call {
    RL_CALL_ADD_VERTEX = 16,
    RL_CALL_ADD_EDGE = 17,
    RL_CALL_REMOVE_EDGE = 18,
    RL_CALL_MOVE_AFTER = 19,
    RL_CALL_GREEDY_APPEND = 20,
    RL_CALL_SIFT = 21,
    RL_CALL_SIFTING_ROUND = 22,
    RL_CALL_CONVERGE = 23
};

/* Where a list starts; any other number is the empty layout too. */
enum rl_origin {
    RL_FROM_EMPTY = 0,
    RL_FROM_CHART = 1,
    RL_FROM_GRAPH6 = 2
};

/*
 * Plays a list of calls from an rl_origin: from the empty layout, which looks at
 * no byte of the start, or from the chart or graph6 that the start holds. A call
 * is RL_CALL_NUMBERS numbers: an rl_call and what it names, 0 where it names less;
 * the fourth, modulo 256, is the weight of an edge that is added, and otherwise
 * not looked at. The list ends at the first number that is no rl_call; numbers
 * behind its last whole call are not looked at. An answer is RL_ANSWER_NUMBERS
 * numbers: the refusal code and up to four more, in the sequence of the call's own
 * answer, a bool as 1 or 0, and 0 where it has fewer. Refused: 1 to 8, 24 and 25
 * for a chart and 20 to 22 for a graph6 (the layout is then empty), and 18 for
 * less room than the answers of all calls take (the layout is then the one at the
 * start). Answers behind the last call keep what they hold.
 */
rl_played rl_play(uint8_t origin, const uint8_t *start, size_t start_length,
                  const uint64_t *calls, size_t calls_length,
                  uint64_t *answers, size_t answers_length);

#ifdef __cplusplus
}
#endif

#endif
