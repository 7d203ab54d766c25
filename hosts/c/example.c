/*
 * Reads a chart from the file named, or from standard input, and prints its row
 * as the program ringlist does, with its limit. Then adds a vertex, joins it to
 * vertex 0, and prints the row of the layout that this leads to, with as many
 * rounds as are known to be enough. Status 1: refused. Status 2: what cannot be
 * read or written, told on standard error.
 */
#include <inttypes.h>
#include <stdio.h>

#include "rostulanda.h"

/* The limit that the program ringlist takes. */
#define LIMIT 50

/* Says what was refused; the status of the program. */
static int refused(uint8_t refusal)
{
    printf("refused %u\n", refusal);
    fprintf(stderr, "refused with %u: %s No.\n", refusal, rl_refusal_text(refusal));
    return 1;
}

/* How many edges a valid layout has: each stands in two adjacency words. */
static unsigned edges(const rl_layout *l)
{
    unsigned bits = 0;
    for (size_t v = 0; v < l->n; v++)
        for (uint64_t word = l->adjacency[v]; word != 0; word &= word - 1)
            bits++;
    return bits / 2;
}

/* The least limit that is known to be enough: one round more than there are
 * crossings. The table counts each of them at both of its edges, whatever count
 * is carried. Of a layout that is refused it has no entries. */
static uint32_t enough_rounds(const rl_layout *l)
{
    uint64_t table[RL_MOST_EDGES];
    size_t edges = rl_edge_crossings(l, table, RL_MOST_EDGES).edges;
    uint64_t twice = 0;
    for (size_t e = 0; e < edges; e++)
        twice += table[e];
    return twice / 2 < RL_MOST_ROUNDS ? (uint32_t)(twice / 2 + 1) : RL_MOST_ROUNDS;
}

/* Converges the layout with a limit and prints its row. */
static int print_row(rl_layout *l, uint32_t limit)
{
    rl_counted before = rl_count(l);
    if (before.refusal != RL_ACCEPTED)
        return refused(before.refusal);
    rl_convergence run = rl_converge(l, limit);
    if (run.refusal != RL_ACCEPTED)
        return refused(run.refusal);
    uint8_t order[RL_PLACES];
    uint8_t refusal = rl_order(l, order, sizeof order);
    if (refusal != RL_ACCEPTED)
        return refused(refusal);

    printf("devices %zu\n", l->n);
    printf("links %u\n", edges(l));
    printf("before %" PRIu64 "\n", before.count);
    printf("after %" PRIu64 "\n", rl_count(l).count);
    printf("rounds %u\n", run.rounds);
    printf("settled %s\n", run.converged ? "yes" : "no");
    printf("order");
    for (size_t place = 0; place < l->n; place++)
        printf(" %u", order[place]);
    printf("\n");
    return 0;
}

/* Adds a vertex, and an edge of weight 1 from it to vertex 0 where that is
 * another one. */
static uint8_t add_joined(rl_layout *l)
{
    rl_vertex added = rl_add_vertex(l);
    if (added.refusal != RL_ACCEPTED || added.vertex == 0)
        return added.refusal;
    return rl_add_edge(l, added.vertex, 0, 1);
}

/* Prints the rows of a chart; the status of the program. */
static int print_rows(const uint8_t *chart, size_t length)
{
    rl_layout l = rl_empty();
    uint8_t refusal = rl_read_chart(&l, chart, length);
    if (refusal != RL_ACCEPTED)
        return refused(refusal);
    if (print_row(&l, LIMIT) != 0)
        return 1;

    printf("\n");
    refusal = add_joined(&l);
    if (refusal != RL_ACCEPTED)
        return refused(refusal);
    return print_row(&l, enough_rounds(&l));
}

/* Says what could not be read or written; the status of the program. */
static int failed(const char *name)
{
    perror(name);
    return 2;
}

int main(int argc, char **argv)
{
    const char *name = argc > 1 ? argv[1] : "standard input";
    FILE *file = argc > 1 ? fopen(name, "rb") : stdin;
    if (file == NULL)
        return failed(name);
    /* One byte more than a chart may have, to tell that it is too long. */
    uint8_t chart[RL_CHART_BYTES + 1];
    size_t length = fread(chart, 1, sizeof chart, file);
    if (ferror(file))
        return failed(name);
    int status = print_rows(chart, length);
    /* What is written may fail as late as here. */
    if (fflush(stdout) != 0 || ferror(stdout))
        return failed("standard output");
    return status;
}
