/*
 * Prints what crosses the boundary as C sees it: the size of each struct and the
 * offset of each field, and each refusal code with its name and question. The
 * other hosts print the same lines.
 */
#include <stdio.h>

#include "rostulanda.h"

#define SIZE(type) printf(#type " %zu\n", sizeof(type))
#define AT(type, field) printf(#type "." #field " %zu\n", offsetof(type, field))
#define REFUSAL(name) printf("%u " #name " %s\n", RL_##name, rl_refusal_text(RL_##name))

static void layouts(void)
{
    SIZE(rl_layout);
    AT(rl_layout, n);
    AT(rl_layout, order);
    AT(rl_layout, adjacency);
    AT(rl_layout, weights);
    AT(rl_layout, count);
    SIZE(rl_edge);
    AT(rl_edge, low);
    AT(rl_edge, high);
}

/* What calls answer that change the layout. */
static void changes(void)
{
    SIZE(rl_vertex);
    AT(rl_vertex, refusal);
    AT(rl_vertex, vertex);
    SIZE(rl_tally);
    AT(rl_tally, refusal);
    AT(rl_tally, tally);
    SIZE(rl_sifted);
    AT(rl_sifted, refusal);
    AT(rl_sifted, reduction);
    AT(rl_sifted, optima);
    SIZE(rl_round);
    AT(rl_round, refusal);
    AT(rl_round, reduction);
    AT(rl_round, moved);
    AT(rl_round, optima);
    SIZE(rl_convergence);
    AT(rl_convergence, refusal);
    AT(rl_convergence, reduction);
    AT(rl_convergence, rounds);
    AT(rl_convergence, converged);
    AT(rl_convergence, optima);
}

/* What calls answer that only read it, and what a list of calls does. */
static void reads(void)
{
    SIZE(rl_counted);
    AT(rl_counted, refusal);
    AT(rl_counted, count);
    SIZE(rl_crossing);
    AT(rl_crossing, refusal);
    AT(rl_crossing, found);
    AT(rl_crossing, first);
    AT(rl_crossing, second);
    SIZE(rl_written);
    AT(rl_written, refusal);
    AT(rl_written, length);
    SIZE(rl_edges_counted);
    AT(rl_edges_counted, refusal);
    AT(rl_edges_counted, edges);
    SIZE(rl_played);
    AT(rl_played, refusal);
    AT(rl_played, layout);
    AT(rl_played, calls);
}

static void refusals(void)
{
    REFUSAL(CHART_TOO_LONG);
    REFUSAL(CHART_FIELDS);
    REFUSAL(CHART_TAGS);
    REFUSAL(CHART_VERTICES);
    REFUSAL(CHART_ODD_EDGES);
    REFUSAL(CHART_EDGE_ENDS);
    REFUSAL(CHART_EDGE_TWICE);
    REFUSAL(CHART_ORDER);
    REFUSAL(INVALID_LAYOUT);
    REFUSAL(NO_SUCH_VERTEX);
    REFUSAL(SAME_VERTEX);
    REFUSAL(EDGE_IS_THERE);
    REFUSAL(NO_SUCH_EDGE);
    REFUSAL(NO_ROOM);
    REFUSAL(LIMIT_OUT_OF_RANGE);
    REFUSAL(BUFFER_TOO_SHORT);
    REFUSAL(WRITE_BUFFER_TOO_SHORT);
    REFUSAL(GRAPH6_SIZE);
    REFUSAL(GRAPH6_DATA);
    REFUSAL(GRAPH6_PADDING);
    REFUSAL(TABLE_TOO_SHORT);
    REFUSAL(CHART_WEIGHTS);
    REFUSAL(WEIGHT_OUT_OF_RANGE);
    REFUSAL(GRAPH6_WEIGHTS);
}

int main(void)
{
    layouts();
    changes();
    reads();
    refusals();
    return 0;
}
