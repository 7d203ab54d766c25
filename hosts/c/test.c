/*
 * What the header says of the boundary, tried: every function once, refusals,
 * and what stays untouched. That all answers are right is what the comparisons
 * of play.c look at. Prints what fails, and how many facts were tried.
 */
#include <stdio.h>
#include <string.h>

#include "rostulanda.h"

static int tried, failed;

#define HOLDS(fact)                                                   \
    do {                                                              \
        tried++;                                                      \
        if (!(fact)) {                                                \
            failed++;                                                 \
            printf("test.c:%d: this does not hold: %s\n", __LINE__, #fact); \
        }                                                             \
    } while (0)

/* Four vertices, 0-2 and 1-3: one crossing. */
static const uint8_t chart[] = {0x44, 0, 1, 4, 0x4C, 0, 4, 0, 2, 1, 3, 0x52, 0, 4, 0, 1, 2, 3};

/* The same in graph6: 0-2 is the second pair, 1-3 the fifth. */
static const uint8_t graph6[] = {4 + 63, 18 + 63};

static rl_layout first(void)
{
    rl_layout l = rl_empty();
    HOLDS(rl_read_chart(&l, chart, sizeof chart) == RL_ACCEPTED);
    return l;
}

/* The first layout, with the weights 200 and 100. */
static rl_layout heavy(void)
{
    rl_layout l = first();
    HOLDS(rl_remove_edge(&l, 0, 2) == RL_ACCEPTED && rl_remove_edge(&l, 1, 3) == RL_ACCEPTED);
    HOLDS(rl_add_edge(&l, 2, 0, 200) == RL_ACCEPTED && rl_add_edge(&l, 1, 3, 100) == RL_ACCEPTED);
    return l;
}

static uint8_t weight(const rl_layout *l, size_t a, size_t b)
{
    return l->weights[RL_PLACES * a + b];
}

static bool same(const rl_layout *a, const rl_layout *b)
{
    return a->n == b->n && a->count == b->count && memcmp(a->order, b->order, sizeof a->order) == 0
        && memcmp(a->adjacency, b->adjacency, sizeof a->adjacency) == 0
        && memcmp(a->weights, b->weights, sizeof a->weights) == 0;
}

static bool holds_only(const uint8_t *bytes, size_t length, uint8_t value)
{
    for (size_t i = 0; i < length; i++)
        if (bytes[i] != value)
            return false;
    return true;
}

static void starts(void)
{
    rl_layout empty = rl_empty();
    rl_layout zero;
    memset(&zero, 0, sizeof zero);
    HOLDS(same(&empty, &zero));
    HOLDS(rl_is_valid(&zero));

    rl_layout l = first();
    HOLDS(l.n == 4 && l.count == 1 && l.adjacency[0] == 4 && l.adjacency[3] == 2);
    HOLDS(weight(&l, 0, 2) == 1 && weight(&l, 3, 1) == 1 && weight(&l, 0, 1) == 0);
    HOLDS(rl_read_chart(&l, chart, sizeof chart - 1) == RL_CHART_FIELDS && same(&l, &empty));
    l = first();
    HOLDS(rl_read_chart(&l, chart, 0) == RL_CHART_TAGS && same(&l, &empty));
    static const uint8_t too_long[RL_CHART_BYTES + 1];
    l = first();
    l.count = 77;
    HOLDS(rl_read_chart(&l, too_long, sizeof too_long) == RL_CHART_TOO_LONG && same(&l, &empty));
    memset(&l, 0xFF, sizeof l);
    HOLDS(rl_read_chart(&l, too_long, sizeof too_long - 1) == RL_CHART_FIELDS && same(&l, &empty));
}

/* A graph6 into a layout, whatever that held. */
static void imports(void)
{
    rl_layout due = first();
    rl_layout l;
    memset(&l, 0xFF, sizeof l);
    HOLDS(rl_import_graph6(&l, graph6, sizeof graph6) == RL_ACCEPTED && same(&l, &due));
    /* Four vertices and the fourth pair, 0-3. */
    HOLDS(rl_import_graph6(&l, (const uint8_t *)"CC", 2) == RL_ACCEPTED);
    HOLDS(l.adjacency[0] == 8 && l.adjacency[1] == 0 && l.adjacency[2] == 0 && l.adjacency[3] == 1);
    HOLDS(weight(&l, 0, 3) == 1 && weight(&l, 3, 0) == 1 && weight(&l, 0, 2) == 0);
    due = rl_empty();
    HOLDS(rl_import_graph6(&l, (const uint8_t *)"?", 1) == RL_ACCEPTED && same(&l, &due));
    HOLDS(rl_add_vertex(&due).refusal == RL_ACCEPTED);
    HOLDS(rl_import_graph6(&l, (const uint8_t *)"@", 1) == RL_ACCEPTED && same(&l, &due));
}

/* Graph6 of each refusal; the layout is then the empty one, whatever it held. */
static void refused_imports(void)
{
    static const struct {
        const char *graph6;
        uint8_t refusal;
    } due[] = {
        /* Nothing, a byte that is none of graph6, a header. */
        {"", RL_GRAPH6_SIZE}, {"\n", RL_GRAPH6_SIZE}, {"\177", RL_GRAPH6_SIZE},
        {">>graph6<<CQ", RL_GRAPH6_SIZE},
        /* The longer form: cut short, of 4, of 62, of 65, with a wrong byte. */
        {"~?@", RL_GRAPH6_SIZE}, {"~??CQ", RL_GRAPH6_SIZE}, {"~??}", RL_GRAPH6_SIZE},
        {"~?@@", RL_GRAPH6_SIZE}, {"~?@\177", RL_GRAPH6_SIZE}, {"~~????", RL_GRAPH6_SIZE},
        /* 63 and 64 vertices without data, too few and too many bytes, a line end. */
        {"~??~", RL_GRAPH6_DATA}, {"~?@?", RL_GRAPH6_DATA}, {"C", RL_GRAPH6_DATA},
        {"CQ?", RL_GRAPH6_DATA}, {"CQ\n", RL_GRAPH6_DATA}, {"@?", RL_GRAPH6_DATA},
        {"C>", RL_GRAPH6_DATA}, {"C\177", RL_GRAPH6_DATA}, {"B@\n", RL_GRAPH6_DATA},
        /* Three vertices, two, five. */
        {"B@", RL_GRAPH6_PADDING}, {"B~", RL_GRAPH6_PADDING}, {"A`", RL_GRAPH6_PADDING},
        {"D?A", RL_GRAPH6_PADDING},
    };
    rl_layout empty = rl_empty();
    for (size_t i = 0; i < sizeof due / sizeof *due; i++) {
        const uint8_t *bytes = (const uint8_t *)due[i].graph6;
        rl_layout l = first();
        HOLDS(rl_import_graph6(&l, bytes, strlen(due[i].graph6)) == due[i].refusal);
        HOLDS(same(&l, &empty));
        memset(&l, 0xFF, sizeof l);
        HOLDS(rl_import_graph6(&l, bytes, strlen(due[i].graph6)) == due[i].refusal);
        HOLDS(same(&l, &empty));
    }
}

/* Vertices, edges and moves. */
static void edits(void)
{
    rl_layout l = first();
    rl_vertex added = rl_add_vertex(&l);
    HOLDS(added.refusal == RL_ACCEPTED && added.vertex == 4 && l.n == 5);
    HOLDS(rl_add_edge(&l, 4, 1, 1) == RL_ACCEPTED && l.count == 2);
    HOLDS(rl_add_edge(&l, 1, 4, 1) == RL_EDGE_IS_THERE && l.count == 2);
    HOLDS(rl_add_edge(&l, 1, 1, 1) == RL_SAME_VERTEX);
    HOLDS(rl_add_edge(&l, 1, SIZE_MAX, 1) == RL_NO_SUCH_VERTEX);
    HOLDS(rl_remove_edge(&l, 4, 1) == RL_ACCEPTED && l.count == 1);
    HOLDS(rl_remove_edge(&l, 4, 1) == RL_NO_SUCH_EDGE);
    HOLDS(rl_move_after(&l, 4, 0) == RL_ACCEPTED && l.order[1] == 4 && l.order[2] == 1);
    HOLDS(rl_move_after(&l, 5, 0) == RL_NO_SUCH_VERTEX);

    l = rl_empty();
    for (size_t v = 0; v < RL_PLACES; v++)
        HOLDS(rl_add_vertex(&l).vertex == v);
    HOLDS(rl_add_vertex(&l).refusal == RL_NO_ROOM && l.n == RL_PLACES);
}

/* New orders. */
static void orders(void)
{
    rl_layout l = first();
    rl_sifted sifted = rl_sift(&l, 0);
    HOLDS(sifted.refusal == RL_ACCEPTED && sifted.reduction == 1 && l.order[0] == 1);
    HOLDS(sifted.optima == 2);
    sifted = rl_sift(&l, 4);
    HOLDS(sifted.refusal == RL_NO_SUCH_VERTEX && sifted.reduction == 0 && sifted.optima == 0);
    l = first();
    rl_round round = rl_sifting_round(&l);
    HOLDS(round.refusal == RL_ACCEPTED && round.reduction == 1 && round.moved == 1);
    HOLDS(round.optima == 8);
    l = first();
    rl_convergence run = rl_converge(&l, 1);
    HOLDS(run.refusal == RL_ACCEPTED && run.rounds == 1 && !run.converged && l.count == 0);
    HOLDS(run.optima == 8);
    l = first();
    run = rl_converge(&l, 1000);
    HOLDS(run.refusal == RL_ACCEPTED && run.reduction == 1 && run.rounds == 2 && run.converged);
    HOLDS(run.optima == 16);
    run = rl_converge(&l, 1001);
    HOLDS(run.refusal == RL_LIMIT_OUT_OF_RANGE && run.rounds == 0 && !run.converged);
    HOLDS(run.optima == 0);
    HOLDS(rl_converge(&l, 0).refusal == RL_LIMIT_OUT_OF_RANGE);
    rl_tally laid = rl_greedy_append(&l, 3);
    HOLDS(laid.refusal == RL_ACCEPTED && laid.tally == l.count);
    HOLDS(rl_greedy_append(&l, 4).refusal == RL_NO_SUCH_VERTEX);
}

/* The sum of all edges' crossings: twice those of the layout. */
static uint64_t twice_the_crossings(const rl_layout *l)
{
    uint64_t table[RL_MOST_EDGES];
    rl_edges_counted counted = rl_edge_crossings(l, table, RL_MOST_EDGES);
    HOLDS(counted.refusal == RL_ACCEPTED);
    uint64_t sum = 0;
    for (size_t i = 0; i < counted.edges; i++)
        sum += table[i];
    return sum;
}

/* A limit that is larger than the one crossing is enough, and one that equals it
 * is not, whatever count is carried. */
static void enough_rounds(void)
{
    static const uint64_t counts[] = {1, 0, 77, UINT64_MAX};
    for (size_t i = 0; i < sizeof counts / sizeof *counts; i++) {
        rl_layout l = first();
        l.count = counts[i];
        HOLDS(twice_the_crossings(&l) == 2);
        rl_layout other = l;
        rl_convergence run = rl_converge(&l, 1);
        HOLDS(run.refusal == RL_ACCEPTED && run.rounds == 1 && !run.converged);
        run = rl_converge(&other, 2);
        HOLDS(run.refusal == RL_ACCEPTED && run.rounds == 2 && run.converged);
        HOLDS(same(&l, &other) && l.count == counts[i] - 1);
    }
    rl_layout l = first();
    HOLDS(rl_converge(&l, RL_MOST_ROUNDS + 1).refusal == RL_LIMIT_OUT_OF_RANGE);
    rl_convergence run = rl_converge(&l, RL_MOST_ROUNDS);
    HOLDS(run.refusal == RL_ACCEPTED && run.rounds == 2 && run.converged);
}

/* Complete graphs of up to four vertices: every candidate place has the least
 * crossings. */
static void optima(void)
{
    rl_layout l = rl_empty();
    for (size_t v = 0; v < 4; v++) {
        HOLDS(rl_add_vertex(&l).vertex == v);
        for (size_t w = 0; w < v; w++)
            HOLDS(rl_add_edge(&l, v, w, 1) == RL_ACCEPTED);
        rl_sifted sifted = rl_sift(&l, 0);
        HOLDS(sifted.refusal == RL_ACCEPTED && sifted.reduction == 0 && sifted.optima == v);
        HOLDS(rl_sifting_round(&l).optima == (v + 1) * v);
    }
}

static void reads(void)
{
    rl_layout l = first();
    uint8_t buffer[8];
    memset(buffer, 77, sizeof buffer);
    HOLDS(rl_order(&l, buffer, 3) == RL_BUFFER_TOO_SHORT && holds_only(buffer, 8, 77));
    HOLDS(rl_order(&l, buffer, 0) == RL_BUFFER_TOO_SHORT && holds_only(buffer, 8, 77));
    HOLDS(rl_order(&l, buffer, 5) == RL_ACCEPTED && memcmp(buffer, l.order, 4) == 0);
    HOLDS(holds_only(buffer + 4, 4, 77));
    rl_crossing crossing = rl_first_crossing(&l);
    HOLDS(crossing.refusal == RL_ACCEPTED && crossing.found);
    HOLDS(crossing.first.low == 0 && crossing.first.high == 2);
    HOLDS(crossing.second.low == 1 && crossing.second.high == 3);
    HOLDS(rl_count(&l).count == 1);
    rl_sift(&l, 0);
    crossing = rl_first_crossing(&l);
    HOLDS(crossing.refusal == RL_ACCEPTED && !crossing.found);

    rl_layout empty = rl_empty();
    HOLDS(rl_order(&empty, buffer, 0) == RL_ACCEPTED);
}

/* A call that writes a layout, into a buffer of any length: what it writes is due,
 * and the bytes beyond it, or all if they are too few, keep what they hold. */
static void writes_into(rl_written (*write)(const rl_layout *, uint8_t *, size_t),
                        const rl_layout *l, const uint8_t *due, size_t length)
{
    uint8_t buffer[RL_WRITTEN_CHART_BYTES];
    memset(buffer, 77, sizeof buffer);
    rl_written written = write(l, buffer, length - 1);
    HOLDS(written.refusal == RL_WRITE_BUFFER_TOO_SHORT && written.length == 0);
    written = write(l, buffer, 0);
    HOLDS(written.refusal == RL_WRITE_BUFFER_TOO_SHORT && written.length == 0);
    HOLDS(holds_only(buffer, sizeof buffer, 77));
    for (size_t more = 0; more < 2; more++) {
        memset(buffer, 77, sizeof buffer);
        written = write(l, buffer, length + more);
        HOLDS(written.refusal == RL_ACCEPTED && written.length == length);
        HOLDS(memcmp(buffer, due, length) == 0);
        HOLDS(holds_only(buffer + length, sizeof buffer - length, 77));
    }
}

/* A chart written by rl_write_chart: its bytes, whatever the carried count, and
 * the layout that reading them into another one gives. */
static void writes(void)
{
    /* Edges in any sequence and either way round, and as they are written. */
    static const uint8_t listed[] = {
        0x44, 0, 1, 4, 0x4C, 0, 8, 3, 2, 2, 0, 1, 3, 1, 0, 0x52, 0, 4, 2, 0, 3, 1,
    };
    static const uint8_t sorted[] = {
        0x44, 0, 1, 4, 0x4C, 0, 8, 0, 1, 0, 2, 1, 3, 2, 3, 0x52, 0, 4, 2, 0, 3, 1,
    };
    rl_layout l = rl_empty();
    HOLDS(rl_read_chart(&l, listed, sizeof listed) == RL_ACCEPTED && l.count == 1);
    rl_layout carried = l;
    carried.count = 77;
    rl_layout before = carried;
    writes_into(rl_write_chart, &carried, sorted, sizeof sorted);
    HOLDS(same(&carried, &before));
    rl_layout again = first();
    HOLDS(rl_read_chart(&again, sorted, sizeof sorted) == RL_ACCEPTED && same(&again, &l));

    static const uint8_t none[] = {0x44, 0, 1, 0, 0x4C, 0, 0, 0x52, 0, 0};
    rl_layout empty = rl_empty();
    writes_into(rl_write_chart, &empty, none, sizeof none);
    HOLDS(rl_read_chart(&again, none, sizeof none) == RL_ACCEPTED && same(&again, &empty));
}

/* A graph6, whatever the order and the carried count. */
static void exports(void)
{
    rl_layout l = first();
    HOLDS(rl_move_after(&l, 3, 0) == RL_ACCEPTED && l.count == 0);
    l.count = 77;
    rl_layout before = l;
    writes_into(rl_export_graph6, &l, graph6, sizeof graph6);
    HOLDS(same(&l, &before));
    rl_layout empty = rl_empty();
    writes_into(rl_export_graph6, &empty, (const uint8_t *)"?", 1);
}

/* From 1 to 64 vertices and all edges, each of one weight, in falling order. */
static rl_layout complete(size_t n, uint8_t weight)
{
    rl_layout l = rl_empty();
    l.n = n;
    for (size_t v = 0; v < n; v++) {
        l.order[v] = (uint8_t)(n - 1 - v);
        l.adjacency[v] = UINT64_MAX >> (RL_PLACES - n) & ~((uint64_t)1 << v);
        for (size_t w = 0; w < n; w++)
            l.weights[RL_PLACES * v + w] = w == v ? 0 : weight;
    }
    return l;
}

/* The longest chart that is written, and the longest one without weights. */
static void writes_the_longest(void)
{
    static const struct {
        uint8_t weight;
        size_t length;
        uint64_t crossings;
    } due[] = {
        {1, 4106, 635376}, {255, RL_WRITTEN_CHART_BYTES, 41315324400},
    };
    for (size_t i = 0; i < sizeof due / sizeof *due; i++) {
        rl_layout l = complete(RL_PLACES, due[i].weight);
        uint8_t buffer[RL_WRITTEN_CHART_BYTES];
        rl_written written = rl_write_chart(&l, buffer, due[i].length - 1);
        HOLDS(written.refusal == RL_WRITE_BUFFER_TOO_SHORT);
        HOLDS(rl_write_chart(&l, buffer, due[i].length).length == due[i].length);
        rl_layout again = first();
        HOLDS(rl_read_chart(&again, buffer, due[i].length) == RL_ACCEPTED);
        HOLDS(again.count == due[i].crossings);
        again.count = l.count;
        HOLDS(same(&again, &l));
    }
}

/* The largest graph whose size is one byte, those that have four, and with all
 * edges the longest graph6. */
static void exports_the_largest(void)
{
    static const struct {
        size_t n;
        const char *size;
        size_t length;
        uint64_t crossings;
    } due[] = {
        {62, "}", 317, 557845}, {63, "~??~", 330, 595665}, {64, "~?@?", RL_GRAPH6_BYTES, 635376},
    };
    for (size_t i = 0; i < sizeof due / sizeof *due; i++) {
        rl_layout l = complete(due[i].n, 1);
        uint8_t buffer[RL_GRAPH6_BYTES];
        rl_written written = rl_export_graph6(&l, buffer, due[i].length - 1);
        HOLDS(written.refusal == RL_WRITE_BUFFER_TOO_SHORT);
        written = rl_export_graph6(&l, buffer, due[i].length);
        HOLDS(written.refusal == RL_ACCEPTED && written.length == due[i].length);
        HOLDS(memcmp(buffer, due[i].size, strlen(due[i].size)) == 0);
        rl_layout again = first();
        HOLDS(rl_import_graph6(&again, buffer, due[i].length) == RL_ACCEPTED);
        l.count = due[i].crossings;
        for (size_t v = 0; v < l.n; v++)
            l.order[v] = (uint8_t)v;
        HOLDS(same(&again, &l));
    }
}

/* The crossings of every edge, into a table of any length: the numbers are due, and
 * the entries beyond them, or all if they are too few, keep what they hold. */
static void counts_into(const rl_layout *l, const uint64_t *due, size_t edges)
{
    uint64_t table[RL_MOST_EDGES + 1];
    memset(table, 77, sizeof table);
    for (size_t length = 0; length < edges; length++) {
        rl_edges_counted counted = rl_edge_crossings(l, table, length);
        HOLDS(counted.refusal == RL_TABLE_TOO_SHORT && counted.edges == 0);
    }
    HOLDS(holds_only((const uint8_t *)table, sizeof table, 77));
    for (size_t more = 0; more < 2; more++) {
        memset(table, 77, sizeof table);
        rl_edges_counted counted = rl_edge_crossings(l, table, edges + more);
        HOLDS(counted.refusal == RL_ACCEPTED && counted.edges == edges);
        size_t written = edges * sizeof *due;
        HOLDS(memcmp(table, due, written) == 0);
        HOLDS(holds_only((const uint8_t *)table + written, sizeof table - written, 77));
    }
}

/* The crossings of every edge, whatever the carried count; no edge has no number. */
static void edge_crossings(void)
{
    /* 3-5 2-4 0-1 5-0 2-1 4-3 5-2, in the order 0 3 2 1 5 4. */
    static const uint8_t tangled[] = {
        0x44, 0, 1, 6, 0x4C, 0, 14, 3, 5, 2, 4, 0, 1, 5, 0, 2, 1, 4, 3, 5, 2,
        0x52, 0, 6, 0, 3, 2, 1, 5, 4,
    };
    /* 0-1, 0-5, 1-2, 2-4, 2-5, 3-4, 3-5. */
    static const uint64_t due[] = {4, 2, 0, 3, 1, 2, 2};
    rl_layout l = rl_empty();
    HOLDS(rl_read_chart(&l, tangled, sizeof tangled) == RL_ACCEPTED && l.count == 7);
    l.count = 77;
    rl_layout before = l;
    counts_into(&l, due, sizeof due / sizeof *due);
    HOLDS(same(&l, &before));
    l = rl_empty();
    counts_into(&l, due, 0);
    HOLDS(rl_add_vertex(&l).refusal == RL_ACCEPTED);
    counts_into(&l, due, 0);
}

/* All edges of 64 vertices: the chord between two places with k others on its one
 * side is crossed by all that join these and the 62 - k on the other. */
static void edge_crossings_of_all_edges(uint8_t weight)
{
    rl_layout l = complete(RL_PLACES, weight);
    uint64_t due[RL_MOST_EDGES];
    size_t edges = 0;
    for (uint64_t low = 0; low < RL_PLACES; low++)
        for (uint64_t high = low + 1; high < RL_PLACES; high++) {
            uint64_t between = high - low - 1;
            due[edges++] = between * (RL_PLACES - 2 - between) * weight * weight;
        }
    HOLDS(edges == RL_MOST_EDGES);
    counts_into(&l, due, edges);
}

/* After each call of many, with up to 24 vertices, one edge in three and weights
 * from 1 to 255. */
static void sums_of_edge_crossings(void)
{
    rl_layout l = rl_empty();
    for (size_t v = 0; v < 24; v++) {
        HOLDS(rl_add_vertex(&l).vertex == v);
        for (size_t w = v % 3; w < v; w += 3) {
            HOLDS(rl_add_edge(&l, w, v, (uint8_t)(1 + (97 * v + 31 * w) % 255)) == RL_ACCEPTED);
            HOLDS(twice_the_crossings(&l) == 2 * l.count);
        }
    }
    HOLDS(l.count > 0);
    for (size_t v = 0; v < l.n; v++) {
        HOLDS(rl_sift(&l, v).refusal == RL_ACCEPTED);
        HOLDS(twice_the_crossings(&l) == 2 * l.count);
    }
}

/* Weights of every crossing, both ways round; a weight of 0 is refused last. */
static void weighs(void)
{
    rl_layout l = heavy();
    HOLDS(l.count == 20000 && rl_count(&l).count == 20000);
    HOLDS(weight(&l, 0, 2) == 200 && weight(&l, 2, 0) == 200);
    HOLDS(weight(&l, 1, 3) == 100 && weight(&l, 3, 1) == 100 && weight(&l, 0, 1) == 0);
    rl_layout before = l;
    HOLDS(rl_add_edge(&l, 0, 1, 0) == RL_WEIGHT_OUT_OF_RANGE);
    HOLDS(rl_add_edge(&l, 0, 2, 0) == RL_EDGE_IS_THERE);
    HOLDS(rl_add_edge(&l, 1, 1, 0) == RL_SAME_VERTEX);
    HOLDS(rl_add_edge(&l, 1, 4, 0) == RL_NO_SUCH_VERTEX);
    HOLDS(same(&l, &before));
    static const uint64_t due[] = {20000, 20000};
    counts_into(&l, due, 2);

    rl_sifted sifted = rl_sift(&l, 0);
    HOLDS(sifted.refusal == RL_ACCEPTED && sifted.reduction == 20000 && sifted.optima == 2);
    HOLDS(l.count == 0 && memcmp(l.weights, before.weights, sizeof l.weights) == 0);
    HOLDS(rl_remove_edge(&l, 0, 2) == RL_ACCEPTED);
    HOLDS(weight(&l, 0, 2) == 0 && weight(&l, 2, 0) == 0 && rl_is_valid(&l));
    /* The carried count of a layout that did not come from a call: modulo 2^64. */
    l = heavy();
    l.count = 0;
    HOLDS(rl_sift(&l, 0).reduction == 20000 && l.count == UINT64_MAX - 19999);
}

/* Four vertices and all edges: greedy append goes by weights where it chooses an
 * end, and by numbers of edges where it chooses a vertex. */
static void lays_by_weight(void)
{
    static const struct {
        uint8_t weights[6], order[4];
        uint64_t tally;
    } due[] = {
        {{1, 1, 1, 1, 1, 1}, {2, 0, 1, 3}, 1}, {{1, 2, 1, 2, 3, 1}, {1, 2, 0, 3}, 1},
    };
    for (size_t i = 0; i < sizeof due / sizeof *due; i++) {
        rl_layout l = rl_empty();
        for (size_t v = 0; v < 4; v++)
            HOLDS(rl_add_vertex(&l).vertex == v);
        const uint8_t *next = due[i].weights;
        for (size_t a = 0; a < 4; a++)
            for (size_t b = a + 1; b < 4; b++)
                HOLDS(rl_add_edge(&l, a, b, *next++) == RL_ACCEPTED);
        rl_tally laid = rl_greedy_append(&l, 2);
        HOLDS(laid.refusal == RL_ACCEPTED && laid.tally == due[i].tally && l.count == laid.tally);
        HOLDS(memcmp(l.order, due[i].order, 4) == 0);
    }
}

/* Charts with weights: field 57 is the fourth and last. */
static void reads_weights(void)
{
    /* 1-3 weighs 100, 2-0 weighs 200; and as it is written. */
    static const uint8_t listed[] = {
        0x44, 0, 1, 4, 0x4C, 0, 4, 1, 3, 2, 0, 0x52, 0, 4, 0, 1, 2, 3, 0x57, 0, 2, 100, 200,
    };
    static const uint8_t sorted[] = {
        0x44, 0, 1, 4, 0x4C, 0, 4, 0, 2, 1, 3, 0x52, 0, 4, 0, 1, 2, 3, 0x57, 0, 2, 200, 100,
    };
    rl_layout due = heavy();
    rl_layout l = rl_empty();
    HOLDS(rl_read_chart(&l, listed, sizeof listed) == RL_ACCEPTED && same(&l, &due));
    writes_into(rl_write_chart, &l, sorted, sizeof sorted);
    HOLDS(rl_read_chart(&l, sorted, sizeof sorted) == RL_ACCEPTED && same(&l, &due));

    /* Weights of 1 may be there, and are not written. */
    static const uint8_t ones[] = {
        0x44, 0, 1, 4, 0x4C, 0, 4, 0, 2, 1, 3, 0x52, 0, 4, 0, 1, 2, 3, 0x57, 0, 2, 1, 1,
    };
    due = first();
    HOLDS(rl_read_chart(&l, ones, sizeof ones) == RL_ACCEPTED && same(&l, &due));
    writes_into(rl_write_chart, &l, chart, sizeof chart);
    static const uint8_t none[] = {0x44, 0, 1, 0, 0x4C, 0, 0, 0x52, 0, 0, 0x57, 0, 0};
    due = rl_empty();
    HOLDS(rl_read_chart(&l, none, sizeof none) == RL_ACCEPTED && same(&l, &due));
}

/* Charts with weights that are refused, behind the question of the order. */
static void refused_weights(void)
{
    static const struct {
        uint8_t chart[28];
        size_t length;
        uint8_t refusal;
    } due[] = {
        /* Too few, too many, and none with an edge; one without an edge. */
        {{0x44, 0, 1, 2, 0x4C, 0, 2, 0, 1, 0x52, 0, 2, 0, 1, 0x57, 0, 0}, 17, RL_CHART_WEIGHTS},
        {{0x44, 0, 1, 2, 0x4C, 0, 2, 0, 1, 0x52, 0, 2, 0, 1, 0x57, 0, 2, 0, 5}, 19, RL_CHART_WEIGHTS},
        {{0x44, 0, 1, 0, 0x4C, 0, 0, 0x52, 0, 0, 0x57, 0, 1, 5}, 14, RL_CHART_WEIGHTS},
        {{0x44, 0, 1, 2, 0x4C, 0, 2, 0, 1, 0x52, 0, 2, 0, 1, 0x57, 0, 1, 0}, 18, RL_WEIGHT_OUT_OF_RANGE},
        /* A bad order, and fields in another sequence or twice. */
        {{0x44, 0, 1, 2, 0x4C, 0, 2, 0, 1, 0x52, 0, 2, 0, 0, 0x57, 0, 0}, 17, RL_CHART_ORDER},
        {{0x44, 0, 1, 2, 0x4C, 0, 2, 0, 1, 0x57, 0, 1, 5, 0x52, 0, 2, 0, 1}, 18, RL_CHART_TAGS},
        {{0x44, 0, 1, 2, 0x4C, 0, 2, 0, 1, 0x52, 0, 2, 0, 1, 0x57, 0, 1, 5, 0x57, 0, 1, 5}, 22, RL_CHART_TAGS},
    };
    rl_layout empty = rl_empty();
    for (size_t i = 0; i < sizeof due / sizeof *due; i++) {
        rl_layout l = heavy();
        HOLDS(rl_read_chart(&l, due[i].chart, due[i].length) == due[i].refusal);
        HOLDS(same(&l, &empty));
    }
}

/* A graph6 has no weights: 26, asked before the length of the buffer. */
static void exports_no_weights(void)
{
    rl_layout l = heavy();
    uint8_t buffer[RL_GRAPH6_BYTES];
    memset(buffer, 77, sizeof buffer);
    for (size_t length = 0; length < 4; length++) {
        rl_written written = rl_export_graph6(&l, buffer, length);
        HOLDS(written.refusal == RL_GRAPH6_WEIGHTS && written.length == 0);
    }
    HOLDS(holds_only(buffer, sizeof buffer, 77));
    HOLDS(rl_import_graph6(&l, graph6, sizeof graph6) == RL_ACCEPTED);
    rl_layout due = first();
    HOLDS(same(&l, &due));
}

/* Weights that are not those of the edges, or of vertices that are not there. */
static void invalid_weights(void)
{
    static const struct {
        size_t a, b;
        uint8_t weight;
    } wrong[] = {
        {0, 2, 0}, {2, 0, 201}, {0, 1, 1}, {0, 0, 1}, {3, 3, 255}, {0, 4, 1}, {4, 0, 1}, {63, 63, 1},
    };
    for (size_t i = 0; i < sizeof wrong / sizeof *wrong; i++) {
        rl_layout l = heavy();
        l.weights[RL_PLACES * wrong[i].a + wrong[i].b] = wrong[i].weight;
        rl_layout before = l;
        HOLDS(!rl_is_valid(&l) && rl_sift(&l, 0).refusal == RL_INVALID_LAYOUT && same(&l, &before));
    }
    /* Both ways round, but without an edge, or not there where one is. */
    rl_layout l = heavy();
    l.weights[1] = l.weights[RL_PLACES] = 7;
    HOLDS(!rl_is_valid(&l));
    l = heavy();
    l.weights[2] = l.weights[2 * RL_PLACES] = 0;
    HOLDS(!rl_is_valid(&l));
    l.weights[2] = l.weights[2 * RL_PLACES] = 7;
    HOLDS(rl_is_valid(&l));
}

/* Fields of any content: refused by calls that would change them, and left. */
static void invalid_changes(void)
{
    rl_layout l;
    memset(&l, 0xFF, sizeof l);
    rl_layout before = l;
    HOLDS(!rl_is_valid(&l));
    rl_vertex added = rl_add_vertex(&l);
    HOLDS(added.refusal == RL_INVALID_LAYOUT && added.vertex == 0);
    HOLDS(rl_add_edge(&l, 0, 1, 1) == RL_INVALID_LAYOUT);
    HOLDS(rl_add_edge(&l, 0, 1, 0) == RL_INVALID_LAYOUT);
    HOLDS(rl_remove_edge(&l, 0, 1) == RL_INVALID_LAYOUT);
    HOLDS(rl_move_after(&l, 0, 1) == RL_INVALID_LAYOUT);
    rl_tally laid = rl_greedy_append(&l, 0);
    HOLDS(laid.refusal == RL_INVALID_LAYOUT && laid.tally == 0);
    rl_sifted sifted = rl_sift(&l, 0);
    HOLDS(sifted.refusal == RL_INVALID_LAYOUT && sifted.reduction == 0 && sifted.optima == 0);
    rl_round round = rl_sifting_round(&l);
    HOLDS(round.refusal == RL_INVALID_LAYOUT && round.reduction == 0 && round.moved == 0);
    HOLDS(round.optima == 0);
    rl_convergence run = rl_converge(&l, 50);
    HOLDS(run.refusal == RL_INVALID_LAYOUT && run.reduction == 0 && run.rounds == 0 && !run.converged);
    HOLDS(run.optima == 0);
    HOLDS(same(&l, &before));
}

/* Refused by calls that only read them, and what is lent left too. */
static void invalid_reads(void)
{
    rl_layout l;
    memset(&l, 0xFF, sizeof l);
    rl_layout before = l;
    uint8_t buffer[RL_PLACES];
    uint64_t table[RL_PLACES];
    memset(buffer, 77, sizeof buffer);
    memset(table, 77, sizeof table);
    rl_counted counted = rl_count(&l);
    HOLDS(counted.refusal == RL_INVALID_LAYOUT && counted.count == 0);
    HOLDS(rl_order(&l, buffer, sizeof buffer) == RL_INVALID_LAYOUT);
    rl_written written = rl_write_chart(&l, buffer, sizeof buffer);
    HOLDS(written.refusal == RL_INVALID_LAYOUT && written.length == 0);
    HOLDS(rl_write_chart(&l, buffer, 0).refusal == RL_INVALID_LAYOUT);
    written = rl_export_graph6(&l, buffer, sizeof buffer);
    HOLDS(written.refusal == RL_INVALID_LAYOUT && written.length == 0);
    HOLDS(rl_export_graph6(&l, buffer, 0).refusal == RL_INVALID_LAYOUT);
    HOLDS(holds_only(buffer, sizeof buffer, 77));
    rl_edges_counted edges = rl_edge_crossings(&l, table, RL_PLACES);
    HOLDS(edges.refusal == RL_INVALID_LAYOUT && edges.edges == 0);
    HOLDS(rl_edge_crossings(&l, table, 0).refusal == RL_INVALID_LAYOUT);
    HOLDS(holds_only((const uint8_t *)table, sizeof table, 77));
    rl_crossing crossing = rl_first_crossing(&l);
    HOLDS(crossing.refusal == RL_INVALID_LAYOUT && !crossing.found);
    HOLDS(crossing.first.low == 0 && crossing.first.high == 0);
    HOLDS(crossing.second.low == 0 && crossing.second.high == 0);
    HOLDS(same(&l, &before));
}

static void listing(void)
{
    static const char row[] = "devices 4\nlinks 2\nbefore 1\nafter 0\nrounds 2\nsettled yes\norder 1 0 2 3\n";
    static const size_t length = sizeof row - 1;
    uint8_t out[RL_LISTING_BYTES];
    memset(out, 77, sizeof out);
    HOLDS(rl_list_chart(chart, sizeof chart, out, sizeof out - 1) == 0 && holds_only(out, sizeof out, 77));
    HOLDS(rl_list_chart(chart, sizeof chart, out, sizeof out) == length);
    HOLDS(memcmp(out, row, length) == 0 && holds_only(out + length, sizeof out - length, 77));
    HOLDS(rl_list_chart(chart, 0, out, sizeof out) == 10 && memcmp(out, "refused 3\n", 10) == 0);
}

/* The calls that list_from plays, and the numbers that they answer. */
enum { CALLS = 7, TABLE = CALLS * RL_ANSWER_NUMBERS };

/* The same calls one after another, on the first layout: what they lead to, and
 * their answers as a list writes them. */
static rl_layout called(uint64_t answers[CALLS][RL_ANSWER_NUMBERS])
{
    rl_layout l = first();
    rl_vertex added = rl_add_vertex(&l);
    uint8_t joined = rl_add_edge(&l, 4, 1, 9);
    uint8_t refused = rl_add_edge(&l, 4, 4, 1);
    uint8_t weightless = rl_add_edge(&l, 4, 2, 0);
    rl_sifted sifted = rl_sift(&l, 2);
    rl_round round = rl_sifting_round(&l);
    rl_convergence run = rl_converge(&l, 50);
    HOLDS(joined == RL_ACCEPTED && refused == RL_SAME_VERTEX && weightless == RL_WEIGHT_OUT_OF_RANGE);
    const uint64_t due[CALLS][RL_ANSWER_NUMBERS] = {
        {added.refusal, added.vertex},
        {joined},
        {refused},
        {weightless},
        {sifted.refusal, sifted.reduction, sifted.optima},
        {round.refusal, round.reduction, round.moved, round.optima},
        {run.refusal, run.reduction, run.rounds, run.converged, run.optima},
    };
    memcpy(answers, due, sizeof due);
    return l;
}

/* A list from a chart or graph6 of the first layout. */
static void list_from(uint8_t origin, const uint8_t *start, size_t start_length)
{
    /* A weight goes modulo 256, and the list ends at a call that is none. */
    static const uint64_t calls[][RL_CALL_NUMBERS] = {
        {RL_CALL_ADD_VERTEX}, {RL_CALL_ADD_EDGE, 4, 1, 256 + 9}, {RL_CALL_ADD_EDGE, 4, 4, 1},
        {RL_CALL_ADD_EDGE, 4, 2, 256}, {RL_CALL_SIFT, 2}, {RL_CALL_SIFTING_ROUND},
        {RL_CALL_CONVERGE, 50, 0, 7}, {99}, {RL_CALL_ADD_VERTEX},
    };
    static const size_t length = sizeof calls / sizeof **calls;
    /* The table, and one number more. */
    uint64_t answers[TABLE + 1];
    for (size_t i = 0; i <= TABLE; i++)
        answers[i] = 77;
    rl_played played = rl_play(origin, start, start_length, *calls, length, answers, TABLE - 1);
    HOLDS(played.refusal == RL_BUFFER_TOO_SHORT && played.calls == 0 && played.layout.n == 4);
    HOLDS(answers[0] == 77);
    played = rl_play(origin, start, start_length, *calls, length, answers, TABLE + 1);
    HOLDS(played.refusal == RL_ACCEPTED && played.calls == CALLS && answers[TABLE] == 77);

    uint64_t due[CALLS][RL_ANSWER_NUMBERS];
    rl_layout l = called(due);
    HOLDS(memcmp(answers, due, sizeof due) == 0 && same(&l, &played.layout));
}

static void lists(void)
{
    list_from(RL_FROM_CHART, chart, sizeof chart);
    list_from(RL_FROM_GRAPH6, graph6, sizeof graph6);

    static const uint64_t calls[] = {RL_CALL_ADD_VERTEX, 0, 0, 0};
    uint64_t answers[RL_ANSWER_NUMBERS] = {77};
    rl_played played = rl_play(RL_FROM_CHART, chart, 1, calls, 4, answers, RL_ANSWER_NUMBERS);
    HOLDS(played.refusal == RL_CHART_FIELDS && played.calls == 0 && played.layout.n == 0);
    played = rl_play(RL_FROM_GRAPH6, graph6, 1, calls, 4, answers, RL_ANSWER_NUMBERS);
    HOLDS(played.refusal == RL_GRAPH6_DATA && played.calls == 0 && played.layout.n == 0);
    for (size_t length = 0; length < RL_CALL_NUMBERS; length++) {
        played = rl_play(RL_FROM_EMPTY, chart, 0, calls, length, answers, 0);
        HOLDS(played.refusal == RL_ACCEPTED && played.calls == 0 && played.layout.n == 0);
    }
    HOLDS(answers[0] == 77);
    static const uint8_t from_empty[] = {RL_FROM_EMPTY, 3, UINT8_MAX};
    for (size_t i = 0; i < sizeof from_empty; i++) {
        played = rl_play(from_empty[i], chart, sizeof chart, calls, 0, answers, 0);
        HOLDS(played.refusal == RL_ACCEPTED && played.calls == 0 && played.layout.n == 0);
    }
}

static void texts(void)
{
    HOLDS(strcmp(rl_refusal_text(RL_ACCEPTED), "accepted") == 0);
    HOLDS(strcmp(rl_refusal_text(9), "unknown") == 0);
    HOLDS(strcmp(rl_refusal_text(RL_NO_ROOM), "is there room for another (there are 64 vertices already)?") == 0);
    HOLDS(strcmp(rl_refusal_text(RL_WEIGHT_OUT_OF_RANGE), "is each weight a whole number from 1 to 255?") == 0);
}

int main(void)
{
    starts();
    imports();
    refused_imports();
    edits();
    orders();
    enough_rounds();
    optima();
    reads();
    writes();
    exports();
    writes_the_longest();
    exports_the_largest();
    edge_crossings();
    edge_crossings_of_all_edges(1);
    edge_crossings_of_all_edges(255);
    sums_of_edge_crossings();
    weighs();
    lays_by_weight();
    reads_weights();
    refused_weights();
    exports_no_weights();
    invalid_weights();
    invalid_changes();
    invalid_reads();
    listing();
    lists();
    texts();
    printf("%d facts tried, %d failed\n", tried, failed);
    return failed != 0;
}
