/*
 * Plays a list of calls from standard input through one lent layout and prints
 * the answer lines. Both formats are in tests/README.md.
 */
#include <inttypes.h>
#include <stdio.h>
#include <stdlib.h>
#include <string.h>

#include "rostulanda.h"

/* Bytes in a record; a chart or graph6 is padded to a multiple of it. */
#define RECORD 32

/* The longest buffers that a list can lend: for an order, and for a chart or
 * graph6; and the longest table, for the crossings of every edge. */
#define LONGEST_ORDER 255
#define LONGEST_WRITTEN 8192
#define LONGEST_TABLE 2100

/* A list, and how far it is played. */
typedef struct list {
    uint8_t *bytes;
    size_t length;
    size_t at;
} list;

/* A record: the op, and the numbers that it takes. */
typedef struct record {
    uint64_t op, a, b, c;
} record;

/* The calls that read a layout from bytes, and those that write it to them. */
typedef uint8_t reader(rl_layout *l, const uint8_t *bytes, size_t length);
typedef rl_written writer(const rl_layout *l, uint8_t *buffer, size_t length);

/* All of standard input. */
static list read_list(void)
{
    list read = {NULL, 0, 0};
    size_t room = 0;
    do {
        room += 1 << 16;
        uint8_t *bytes = realloc(read.bytes, room);
        if (bytes == NULL) {
            perror("play");
            exit(2);
        }
        read.bytes = bytes;
        read.length += fread(bytes + read.length, 1, room - read.length, stdin);
    } while (read.length == room);
    return read;
}

static uint64_t number_at(const uint8_t *bytes)
{
    uint64_t number = 0;
    for (int i = 7; i >= 0; i--)
        number = number << 8 | bytes[i];
    return number;
}

/* The next record; false if not all of it is there. */
static bool take_record(list *l, record *taken)
{
    if (l->length - l->at < RECORD)
        return false;
    const uint8_t *bytes = l->bytes + l->at;
    taken->op = number_at(bytes);
    taken->a = number_at(bytes + 8);
    taken->b = number_at(bytes + 16);
    taken->c = number_at(bytes + 24);
    l->at += RECORD;
    return true;
}

/* The next chart or graph6; NULL if not all of it and of its padding is there. */
static const uint8_t *take_bytes(list *l, uint64_t length)
{
    size_t left = l->length - l->at;
    if (length > left)
        return NULL;
    size_t padded = (length + RECORD - 1) / RECORD * RECORD;
    if (padded > left)
        return NULL;
    const uint8_t *bytes = l->bytes + l->at;
    l->at += padded;
    return bytes;
}

/* Sets one field, if that is what the record asks for. */
static bool set_field(rl_layout *l, record r)
{
    switch (r.op) {
    case 2:
        l->n = r.a;
        return true;
    case 3:
        if (r.a < RL_PLACES)
            l->order[r.a] = (uint8_t)r.b;
        return true;
    case 4:
        if (r.a < RL_PLACES)
            l->adjacency[r.a] = r.b;
        return true;
    case 5:
        l->count = r.a;
        return true;
    case 6:
        if (r.a < RL_PLACES && r.b < RL_PLACES)
            l->weights[RL_PLACES * r.a + r.b] = (uint8_t)r.c;
        return true;
    default:
        return false;
    }
}

static void print_bytes(const uint8_t *bytes, size_t length)
{
    for (size_t i = 0; i < length; i++)
        printf(" %u", bytes[i]);
}

/* Starts from a chart or graph6. Refused, the call leaves the empty layout. */
static bool play_start(rl_layout *l, list *rest, uint64_t length, const char *name, reader *read)
{
    const uint8_t *bytes = take_bytes(rest, length);
    if (bytes == NULL)
        return false;
    printf("%s %u", name, read(l, bytes, length));
    return true;
}

static void play_round(rl_layout *l)
{
    rl_round round = rl_sifting_round(l);
    printf("round %u %" PRIu64 " %u %u", round.refusal, round.reduction, round.moved, round.optima);
}

static void play_converge(rl_layout *l, uint64_t limit)
{
    rl_convergence run = rl_converge(l, limit < UINT32_MAX ? (uint32_t)limit : UINT32_MAX);
    printf("settle %u %" PRIu64 " %u %s %u", run.refusal, run.reduction, run.rounds,
           run.converged ? "yes" : "no", run.optima);
}

/* How many elements the record lends, up to the longest. */
static size_t lent_length(size_t longest, record r)
{
    return r.a < longest ? r.a : longest;
}

/* Fills as much of the buffer as the record lends; how many bytes that is. */
static size_t fill_buffer(uint8_t *buffer, size_t longest, record r)
{
    size_t length = lent_length(longest, r);
    memset(buffer, (uint8_t)r.b, length);
    return length;
}

static void print_buffer(const uint8_t *buffer, size_t length)
{
    printf(" buffer");
    print_bytes(buffer, length);
}

static void play_order(const rl_layout *l, record r)
{
    uint8_t buffer[LONGEST_ORDER];
    size_t length = fill_buffer(buffer, sizeof buffer, r);
    printf("order %u", rl_order(l, buffer, length));
    print_buffer(buffer, length);
}

/* Writes a chart or graph6. */
static void play_write(const rl_layout *l, record r, const char *name, writer *write)
{
    uint8_t buffer[LONGEST_WRITTEN];
    size_t length = fill_buffer(buffer, sizeof buffer, r);
    rl_written written = write(l, buffer, length);
    printf("%s %u %zu", name, written.refusal, written.length);
    print_buffer(buffer, length);
}

static void play_edge_crossings(const rl_layout *l, record r)
{
    uint64_t table[LONGEST_TABLE];
    size_t length = lent_length(LONGEST_TABLE, r);
    for (size_t i = 0; i < length; i++)
        table[i] = r.b;
    rl_edges_counted counted = rl_edge_crossings(l, table, length);
    printf("perlink %u %zu table", counted.refusal, counted.edges);
    for (size_t i = 0; i < length; i++)
        printf(" %" PRIu64, table[i]);
}

static void play_first_crossing(const rl_layout *l)
{
    rl_crossing crossing = rl_first_crossing(l);
    printf("pair %u", crossing.refusal);
    if (crossing.found)
        printf(" pair %zu %zu %zu %zu", crossing.first.low, crossing.first.high,
               crossing.second.low, crossing.second.high);
    else
        printf(" %s", crossing.refusal == RL_ACCEPTED ? "none" : "refused");
}

/* A call that changes the layout; false if the op is none. */
static bool play_change(rl_layout *l, record r)
{
    switch (r.op) {
    case 16: {
        rl_vertex added = rl_add_vertex(l);
        printf("add %u %zu", added.refusal, added.vertex);
        return true;
    }
    case 17:
        printf("link %u", rl_add_edge(l, r.a, r.b, (uint8_t)r.c));
        return true;
    case 18:
        printf("unlink %u", rl_remove_edge(l, r.a, r.b));
        return true;
    case 19:
        printf("move %u", rl_move_after(l, r.a, r.b));
        return true;
    case 20: {
        rl_tally laid = rl_greedy_append(l, r.a);
        printf("lay %u %" PRIu64, laid.refusal, laid.tally);
        return true;
    }
    case 21: {
        rl_sifted sifted = rl_sift(l, r.a);
        printf("sift %u %" PRIu64 " %u", sifted.refusal, sifted.reduction, sifted.optima);
        return true;
    }
    case 22:
        play_round(l);
        return true;
    case 23:
        play_converge(l, r.a);
        return true;
    default:
        return false;
    }
}

/* A call that only reads the layout; false if the op is none. */
static bool play_read(const rl_layout *l, record r)
{
    switch (r.op) {
    case 24: {
        rl_counted counted = rl_count(l);
        printf("count %u %" PRIu64, counted.refusal, counted.count);
        return true;
    }
    case 25:
        play_order(l, r);
        return true;
    case 26:
        play_first_crossing(l);
        return true;
    case 27:
        play_write(l, r, "write", rl_write_chart);
        return true;
    case 29:
        play_write(l, r, "export", rl_export_graph6);
        return true;
    case 30:
        play_edge_crossings(l, r);
        return true;
    default:
        return false;
    }
}

/* Makes one call and prints its name, refusal code and answers; false if the
 * op is none, or its bytes are not all there. */
static bool play_call(rl_layout *l, list *rest, record r)
{
    switch (r.op) {
    case 0:
        *l = rl_empty();
        printf("empty 0");
        return true;
    case 1:
        return play_start(l, rest, r.a, "chart", rl_read_chart);
    case 28:
        return play_start(l, rest, r.a, "import", rl_import_graph6);
    default:
        return play_change(l, r) || play_read(l, r);
    }
}

/* The layout, with the adjacency words and weights that differ from those before. */
static void print_layout(const rl_layout *l, const rl_layout *before)
{
    printf(" n %zu order", l->n);
    print_bytes(l->order, RL_PLACES);
    printf(" count %" PRIu64 " words", l->count);
    for (int v = 0; v < RL_PLACES; v++)
        if (l->adjacency[v] != before->adjacency[v])
            printf(" %d %" PRIu64, v, l->adjacency[v]);
    printf(" weights");
    for (int i = 0; i < RL_PLACES * RL_PLACES; i++)
        if (l->weights[i] != before->weights[i])
            printf(" %d %d %u", i / RL_PLACES, i % RL_PLACES, l->weights[i]);
    printf("\n");
}

int main(void)
{
    list rest = read_list();
    rl_layout l = rl_empty();
    while (rest.at < rest.length) {
        rl_layout before = l;
        record r;
        if (!take_record(&rest, &r)) {
            printf("end\n");
            break;
        }
        if (set_field(&l, r))
            continue;
        if (!play_call(&l, &rest, r)) {
            printf("end\n");
            break;
        }
        print_layout(&l, &before);
    }
    free(rest.bytes);
    return 0;
}
