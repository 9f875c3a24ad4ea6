/*
 * The stack that station_check, station_flows and station_run need, in bytes, on the smallest script and on the deepest
 * legal ones.
 *
 *   gcc -O2 -Iinclude tests/speed/stack.c target/staticlib/libengine.a -pthread -Wl,-z,now -o target/stack
 *   target/stack
 *
 * Exit status 1 if a call needs more than ENOUGH.
 * Each call is made in a thread of its own, on a stack that was painted before. What is counted goes from the frame of
 * the caller down to the lowest byte that no longer has the paint. (-z now: no symbol is looked up during the call.)
 */
#include <pthread.h>
#include <stdint.h>
#include <stdio.h>
#include <stdlib.h>
#include <string.h>
#include <sys/mman.h>

#include "station.h"

#define STACK_BYTES (1 << 20)
/* What docs/PERFORMANCE.md and station.h say is enough for every book, script and call. */
#define ENOUGH (192 * 1024)
#define PAINT 0xA5
#define SESSION 0xFFFF
/* The list has a pair for each of so many instants. */
#define INSTANTS 8

/* ---- Scripts. ---- */

struct draft {
    uint8_t names[4 * STATION_MAX_NAMES];
    uint8_t expressions[8 * STATION_MAX_EXPRESSIONS];
    uint8_t nodes[8 * STATION_MAX_NODES];
    unsigned name_count, expression_count, node_count;
};

enum { REGISTER, SIGNAL };
enum { CONSTANT = 0, ADD = 2, NOT = 8 };
enum { NIL, ASSIGN, LET, IF, WHILE, SEQUENCE, EMIT, LOCAL, WATCHING, WHEN, PARALLEL };

static void put_word(uint8_t *at, unsigned word)
{
    at[0] = (uint8_t)(word >> 8);
    at[1] = (uint8_t)word;
}

static void put_entry(uint8_t *at, unsigned kind, unsigned a, unsigned b, unsigned c)
{
    at[0] = (uint8_t)kind;
    at[1] = 0;
    put_word(at + 2, a);
    put_word(at + 4, b);
    put_word(at + 6, c);
}

static unsigned add_name(struct draft *d, unsigned kind)
{
    uint8_t *at = d->names + 4 * d->name_count;
    at[0] = (uint8_t)kind;
    at[1] = 0;
    put_word(at + 2, SESSION);
    return d->name_count++;
}

static unsigned add_expression(struct draft *d, unsigned kind, unsigned a, unsigned b, unsigned c)
{
    put_entry(d->expressions + 8 * d->expression_count, kind, a, b, c);
    return d->expression_count++;
}

static unsigned add_node(struct draft *d, unsigned kind, unsigned a, unsigned b, unsigned c)
{
    put_entry(d->nodes + 8 * d->node_count, kind, a, b, c);
    if (kind == LET || kind == LOCAL)
        put_word(d->names + 4 * a + 2, d->node_count);
    return d->node_count++;
}

static size_t write_file(const struct draft *d, uint8_t *file)
{
    size_t expressions = 4 * d->name_count;
    size_t nodes = expressions + 8 * d->expression_count;
    size_t tail = nodes + 8 * d->node_count;
    memcpy(file, d->names, expressions);
    memcpy(file + expressions, d->expressions, nodes - expressions);
    memcpy(file + nodes, d->nodes, tail - nodes);
    put_word(file + tail, (unsigned)expressions);
    put_word(file + tail + 2, (unsigned)nodes);
    put_word(file + tail + 4, (unsigned)tail);
    put_word(file + tail + 6, 0x5354);
    return tail + 8;
}

static unsigned constant(struct draft *d, unsigned value)
{
    return add_expression(d, CONSTANT, 0, 0, value);
}

/* Of the names that the chains use, `there` is present at the start and arrives in the first instants, `absent` not. */
struct names {
    unsigned x, there, absent;
};

static struct names session_names(struct draft *d)
{
    struct names n;
    n.x = add_name(d, REGISTER);
    n.there = add_name(d, SIGNAL);
    n.absent = add_name(d, SIGNAL);
    return n;
}

/* The chains put one node of a kind around another until no more fit; `inner` is the innermost one. */

static void wrap_signal(struct draft *d, unsigned inner, unsigned kind, unsigned signal)
{
    while (d->node_count < STATION_MAX_NODES)
        inner = add_node(d, kind, signal, inner, 0);
}

static void wrap_while(struct draft *d, unsigned inner)
{
    while (d->node_count < STATION_MAX_NODES)
        inner = add_node(d, WHILE, constant(d, 1), inner, 0);
}

static void wrap_if(struct draft *d, unsigned inner, int then)
{
    while (d->node_count + 2 <= STATION_MAX_NODES) {
        unsigned other = add_node(d, NIL, 0, 0, 0);
        inner = add_node(d, IF, constant(d, (unsigned)then), then ? inner : other, then ? other : inner);
    }
}

static unsigned leaf(struct draft *d, int waits, unsigned absent)
{
    unsigned nil = add_node(d, NIL, 0, 0, 0);
    return waits ? add_node(d, WHEN, absent, nil, 0) : nil;
}

/* A sequence or a parallel; the chain goes on in its first part, or in its second. */
static void wrap_two(struct draft *d, unsigned inner, unsigned kind, int first, int waits, unsigned absent)
{
    while (d->node_count + 3 <= STATION_MAX_NODES) {
        unsigned other = leaf(d, waits, absent);
        inner = add_node(d, kind, first ? inner : other, first ? other : inner, 0);
    }
}

static unsigned wrap_declarations(struct draft *d, unsigned inner, unsigned kind)
{
    while (d->name_count < STATION_MAX_NAMES && d->node_count < STATION_MAX_NODES) {
        unsigned name = add_name(d, kind == LET ? REGISTER : SIGNAL);
        if (kind == LET)
            inner = add_node(d, LET, name, constant(d, 1), inner);
        else
            inner = add_node(d, LOCAL, name, inner, 0);
    }
    return inner;
}

/* An assignment of not not .. 1, of all expressions; or of 1 + (1 + ..), or (.. + 1) + 1. */
static unsigned deep_assignment(struct draft *d, const struct names *n, unsigned kind, int first, unsigned spare)
{
    unsigned e = constant(d, 1);
    while (d->expression_count + (kind == NOT ? 1 : 2) + spare <= STATION_MAX_EXPRESSIONS) {
        if (kind == NOT) {
            e = add_expression(d, NOT, e, 0, 0);
        } else {
            unsigned one = constant(d, 1);
            e = add_expression(d, kind, first ? e : one, first ? one : e, 0);
        }
    }
    return add_node(d, ASSIGN, n->x, e, 0);
}

static unsigned nil(struct draft *d)
{
    return add_node(d, NIL, 0, 0, 0);
}

static void make_smallest(struct draft *d, const struct names *n)
{
    (void)n;
    nil(d);
}

static void make_watching(struct draft *d, const struct names *n)
{
    wrap_signal(d, nil(d), WATCHING, n->absent);
}

static void make_watching_cut(struct draft *d, const struct names *n)
{
    wrap_signal(d, leaf(d, 1, n->absent), WATCHING, n->absent);
}

static void make_when(struct draft *d, const struct names *n)
{
    wrap_signal(d, nil(d), WHEN, n->there);
}

static void make_when_waiting(struct draft *d, const struct names *n)
{
    wrap_signal(d, leaf(d, 1, n->absent), WHEN, n->there);
}

static void make_while(struct draft *d, const struct names *n)
{
    (void)n;
    wrap_while(d, nil(d));
}

static void make_then(struct draft *d, const struct names *n)
{
    (void)n;
    wrap_if(d, nil(d), 1);
}

static void make_else(struct draft *d, const struct names *n)
{
    (void)n;
    wrap_if(d, nil(d), 0);
}

static void make_sequence_left(struct draft *d, const struct names *n)
{
    wrap_two(d, nil(d), SEQUENCE, 1, 0, n->absent);
}

static void make_sequence_right(struct draft *d, const struct names *n)
{
    wrap_two(d, nil(d), SEQUENCE, 0, 0, n->absent);
}

static void make_parallel_left(struct draft *d, const struct names *n)
{
    wrap_two(d, nil(d), PARALLEL, 1, 0, n->absent);
}

static void make_parallel_right(struct draft *d, const struct names *n)
{
    wrap_two(d, nil(d), PARALLEL, 0, 0, n->absent);
}

static void make_waiting_left(struct draft *d, const struct names *n)
{
    wrap_two(d, leaf(d, 1, n->absent), PARALLEL, 1, 1, n->absent);
}

static void make_waiting_right(struct draft *d, const struct names *n)
{
    wrap_two(d, leaf(d, 1, n->absent), PARALLEL, 0, 1, n->absent);
}

static void make_lets(struct draft *d, const struct names *n)
{
    unsigned inner = wrap_declarations(d, nil(d), LET);
    wrap_signal(d, inner, WATCHING, n->absent);
}

static void make_locals(struct draft *d, const struct names *n)
{
    unsigned inner = wrap_declarations(d, nil(d), LOCAL);
    wrap_signal(d, inner, WATCHING, n->absent);
}

static void make_nots(struct draft *d, const struct names *n)
{
    deep_assignment(d, n, NOT, 1, 0);
}

static void make_sums_left(struct draft *d, const struct names *n)
{
    deep_assignment(d, n, ADD, 1, 0);
}

static void make_sums_right(struct draft *d, const struct names *n)
{
    deep_assignment(d, n, ADD, 0, 0);
}

static void make_nots_under_watchings(struct draft *d, const struct names *n)
{
    wrap_signal(d, deep_assignment(d, n, NOT, 1, 0), WATCHING, n->absent);
}

static void make_nots_under_whens(struct draft *d, const struct names *n)
{
    wrap_signal(d, deep_assignment(d, n, NOT, 1, 0), WHEN, n->there);
}

static void make_nots_under_loops(struct draft *d, const struct names *n)
{
    /* Half of the expressions for the tests of 128 loops, then watchings. */
    unsigned inner = deep_assignment(d, n, NOT, 1, 128);
    while (d->expression_count < STATION_MAX_EXPRESSIONS)
        inner = add_node(d, WHILE, constant(d, 1), inner, 0);
    wrap_signal(d, inner, WATCHING, n->absent);
}

/* Below half of the watchings a parallel whose first part waits: its second part, the other half, is asked. */
static void make_asked_below(struct draft *d, const struct names *n)
{
    unsigned waits = leaf(d, 1, n->absent);
    unsigned inner = leaf(d, 1, n->absent);
    while (d->node_count < STATION_MAX_NODES / 2)
        inner = add_node(d, WATCHING, n->absent, inner, 0);
    wrap_signal(d, add_node(d, PARALLEL, waits, inner, 0), WATCHING, n->absent);
}

static const struct chain {
    const char *label;
    void (*make)(struct draft *, const struct names *);
} chains[] = {
    { "smallest script: nil", make_smallest },
    { "watching", make_watching },
    { "watching over a waiting when", make_watching_cut },
    { "when, present", make_when },
    { "when, present, over a waiting when", make_when_waiting },
    { "while", make_while },
    { "if, then", make_then },
    { "if, else", make_else },
    { "sequence, left", make_sequence_left },
    { "sequence, right", make_sequence_right },
    { "parallel, left", make_parallel_left },
    { "parallel, right", make_parallel_right },
    { "parallel of waiting parts, left", make_waiting_left },
    { "parallel of waiting parts, right", make_waiting_right },
    { "let, under watchings", make_lets },
    { "local, under watchings", make_locals },
    { "256 expressions deep, not", make_nots },
    { "128 expressions deep, sum, left", make_sums_left },
    { "128 expressions deep, sum, right", make_sums_right },
    { "256 expressions deep under 255 watchings", make_nots_under_watchings },
    { "256 expressions deep under 255 whens", make_nots_under_whens },
    { "128 expressions deep under loops and watchings", make_nots_under_loops },
    { "parallel under watchings, asks watchings", make_asked_below },
};

/* ---- Calls, each in a thread with a painted stack. ---- */

static const uint8_t book[] = { 1, 0x00, 0x01 };

enum { CHECK, FLOWS, RUN, CALLS };
static const char *const call_names[CALLS] = { "check", "flows", "run" };

struct call {
    int which; /* CHECK, FLOWS or RUN */
    uint8_t file[4 * STATION_MAX_NAMES + 8 * STATION_MAX_EXPRESSIONS + 8 * STATION_MAX_NODES + 8];
    size_t length;
    int32_t values[STATION_MAX_NAMES];
    size_t name_count;
    uint32_t list[INSTANTS * STATION_PAIR_WORDS];
    uint32_t log[4 * 1024];
    uint32_t flows[STATION_MAX_LEVELS];
    uint32_t out[STATION_RUN_WORDS];
    uint8_t *frame;
};

static void *make_call(void *argument)
{
    struct call *c = argument;
    c->frame = __builtin_frame_address(0);
    if (c->which == CHECK)
        station_check(book, sizeof book, c->file, c->length, c->out, STATION_CHECK_WORDS);
    else if (c->which == FLOWS)
        station_flows(c->file, c->length, c->flows, STATION_MAX_LEVELS, c->out, STATION_FLOWS_WORDS);
    else
        station_run(book, sizeof book, c->file, c->length, 0, c->values, c->name_count, 5000, c->list,
                    sizeof c->list / sizeof c->list[0], c->log, sizeof c->log / sizeof c->log[0], c->out,
                    STATION_RUN_WORDS);
    return NULL;
}

static void stop(const char *why)
{
    fprintf(stderr, "stack: %s\n", why);
    exit(1);
}

static size_t measure(struct call *c, uint8_t *stack)
{
    pthread_t thread;
    pthread_attr_t attributes;
    const uint8_t *lowest = stack;

    memset(stack, PAINT, STACK_BYTES);
    if (pthread_attr_init(&attributes) || pthread_attr_setstack(&attributes, stack, STACK_BYTES))
        stop("no stack");
    if (pthread_create(&thread, &attributes, make_call, c) || pthread_join(thread, NULL))
        stop("no thread");
    pthread_attr_destroy(&attributes);
    while (*lowest == PAINT)
        lowest++;
    return (size_t)(c->frame - lowest);
}

static void let_arrive(struct call *c, unsigned signal)
{
    for (uint32_t i = 0; i < INSTANTS; i++) {
        uint32_t *pair = c->list + i * STATION_PAIR_WORDS;
        pair[STATION_PAIR_INSTANT] = i + 1;
        pair[STATION_PAIR_NAME] = signal;
    }
}

static size_t measure_chain(const struct chain *chain, int which, uint8_t *stack)
{
    static struct draft d;
    static struct call c;
    struct names n;
    size_t bytes;

    memset(&d, 0, sizeof d);
    memset(&c, 0, sizeof c);
    n = session_names(&d);
    chain->make(&d, &n);
    c.which = which;
    c.length = write_file(&d, c.file);
    c.name_count = d.name_count;
    c.values[n.there] = 1;
    let_arrive(&c, n.there);
    bytes = measure(&c, stack);
    if (c.out[0] != 0) {
        fprintf(stderr, "stack: %s: refused %u %u\n", chain->label, c.out[0], c.out[1]);
        exit(1);
    }
    return bytes;
}

int main(void)
{
    const char *by[CALLS] = { "", "", "" };
    size_t most[CALLS] = { 0, 0, 0 };
    int enough = 1;
    uint8_t *stack = mmap(NULL, STACK_BYTES, PROT_READ | PROT_WRITE, MAP_PRIVATE | MAP_ANONYMOUS, -1, 0);

    if (stack == MAP_FAILED)
        stop("no memory");
    printf("%-50s", "bytes of stack");
    for (int which = 0; which < CALLS; which++)
        printf("%10s", call_names[which]);
    printf("\n");
    for (size_t i = 0; i < sizeof chains / sizeof chains[0]; i++) {
        printf("%-50s", chains[i].label);
        for (int which = 0; which < CALLS; which++) {
            size_t bytes = measure_chain(&chains[i], which, stack);
            if (bytes > most[which]) {
                most[which] = bytes;
                by[which] = chains[i].label;
            }
            printf("%10zu", bytes);
        }
        printf("\n");
    }
    for (int which = 0; which < CALLS; which++) {
        printf("most for %s: %zu, by: %s\n", call_names[which], most[which], by[which]);
        enough = enough && most[which] <= ENOUGH;
    }
    return enough ? 0 : 1;
}
