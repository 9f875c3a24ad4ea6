/* The edges of the C interface: lengths of `out` and `flows`, empty buffers, words next to a buffer, lengths of the
 * list, refused calls. Prints a line for each and returns 1 if one fails.
 *
 *     cc -I include bindings/c/edges.c target/staticlib/libengine.a -o edges
 */
#include <stdio.h>
#include <stdlib.h>
#include <string.h>

#include "station.h"

/* Two levels, 0 at or below 1. */
static const uint8_t book[] = {0x02, 0x00, 0x03, 0x00, 0x02};

/* x := 7, with x a session register at level 0. */
static const uint8_t script[] = {
    0x00, 0x00, 0xFF, 0xFF,                         /* name 0 */
    0x00, 0x00, 0x00, 0x00, 0x00, 0x00, 0x00, 0x07, /* expression 0 */
    0x01, 0x00, 0x00, 0x00, 0x00, 0x00, 0x00, 0x00, /* node 0 */
    0x00, 0x04, 0x00, 0x0C, 0x00, 0x14, 0x53, 0x54  /* tail */
};

/* nil, with no name and no expression. */
static const uint8_t nil_script[] = {
    0x00, 0x00, 0x00, 0x00, 0x00, 0x00, 0x00, 0x00, /* node 0 */
    0x00, 0x00, 0x00, 0x00, 0x00, 0x08, 0x53, 0x54  /* tail */
};

/* when a do nil, with a session signal a at level 0. */
static const uint8_t wait_script[] = {
    0x01, 0x00, 0xFF, 0xFF,                         /* name 0 */
    0x00, 0x00, 0x00, 0x00, 0x00, 0x00, 0x00, 0x00, /* node 0 */
    0x09, 0x00, 0x00, 0x00, 0x00, 0x00, 0x00, 0x00, /* node 1 */
    0x00, 0x04, 0x00, 0x04, 0x00, 0x14, 0x53, 0x54  /* tail */
};

/* y := x, with session registers y at level 0 and x at level 15, the highest that a script can name. */
static const uint8_t copy_script[] = {
    0x00, 0x00, 0xFF, 0xFF,                         /* name 0 */
    0x00, 0x0F, 0xFF, 0xFF,                         /* name 1 */
    0x01, 0x00, 0x00, 0x01, 0x00, 0x00, 0x00, 0x00, /* expression 0 */
    0x01, 0x00, 0x00, 0x00, 0x00, 0x00, 0x00, 0x00, /* node 0 */
    0x00, 0x08, 0x00, 0x10, 0x00, 0x18, 0x53, 0x54  /* tail */
};

/* while x do nil, with a session register x at level 0. */
static const uint8_t loop_script[] = {
    0x00, 0x00, 0xFF, 0xFF,                         /* name 0 */
    0x01, 0x00, 0x00, 0x00, 0x00, 0x00, 0x00, 0x00, /* expression 0 */
    0x00, 0x00, 0x00, 0x00, 0x00, 0x00, 0x00, 0x00, /* node 0 */
    0x04, 0x00, 0x00, 0x00, 0x00, 0x00, 0x00, 0x00, /* node 1 */
    0x00, 0x04, 0x00, 0x0C, 0x00, 0x1C, 0x53, 0x54  /* tail */
};

/* (when a do nil) parallel emit a, with a session signal a at level 0. */
static const uint8_t parallel_script[] = {
    0x01, 0x00, 0xFF, 0xFF,                         /* name 0 */
    0x00, 0x00, 0x00, 0x00, 0x00, 0x00, 0x00, 0x00, /* node 0 */
    0x09, 0x00, 0x00, 0x00, 0x00, 0x00, 0x00, 0x00, /* node 1 */
    0x06, 0x00, 0x00, 0x00, 0x00, 0x00, 0x00, 0x00, /* node 2 */
    0x0A, 0x00, 0x00, 0x01, 0x00, 0x02, 0x00, 0x00, /* node 3 */
    0x00, 0x04, 0x00, 0x04, 0x00, 0x24, 0x53, 0x54  /* tail */
};

/* The buffers of a call begin AT words into these arrays; what stands around them must not change, nor the list. */
#define AT 2
#define GUARD 0x5AA5C33C
#define LIST_WORDS 5
#define MOST_OUT_WORDS 8

struct buffers {
    int32_t values[2 * AT + 1];
    uint32_t list[2 * AT + LIST_WORDS];
    uint32_t log[2 * AT + 2 * STATION_LINE_WORDS];
    uint32_t flows[2 * AT + STATION_MAX_LEVELS + 1];
    uint32_t out[2 * AT + MOST_OUT_WORDS];
};

static int failures = 0;

static void report(const char *what, int holds) {
    printf("%s: %s\n", holds ? "ok" : "FAILED", what);
    failures += !holds;
}

/* Every word differs from what the calls write; the one value is `value`. */
static struct buffers fresh(int32_t value) {
    struct buffers b;
    for (size_t i = 0; i < sizeof b.values / sizeof b.values[0]; i++) {
        b.values[i] = GUARD;
    }
    for (size_t i = 0; i < sizeof b.list / sizeof b.list[0]; i++) {
        b.list[i] = GUARD;
    }
    for (size_t i = 0; i < sizeof b.log / sizeof b.log[0]; i++) {
        b.log[i] = GUARD;
    }
    for (size_t i = 0; i < sizeof b.flows / sizeof b.flows[0]; i++) {
        b.flows[i] = GUARD;
    }
    for (size_t i = 0; i < sizeof b.out / sizeof b.out[0]; i++) {
        b.out[i] = GUARD;
    }
    b.values[AT] = value;
    return b;
}

/* All five arrays: the members are words of one size, so that there is no padding. */
static int same(const struct buffers *a, const struct buffers *b) {
    return memcmp(a, b, sizeof *a) == 0;
}

/* What station_run leaves where it is refused, and station_check as well: both have six words. */
static void put_refusal(struct buffers *b, uint32_t number, uint32_t place) {
    const uint32_t words[STATION_RUN_WORDS] = {number, place, 0, 0, 0, 0};
    memcpy(b->out + AT, words, sizeof words);
}

static void put_accepted(struct buffers *b, uint32_t write, uint32_t test, uint32_t bounded, uint32_t moves) {
    const uint32_t words[STATION_CHECK_WORDS] = {0, 0, write, test, bounded, moves};
    memcpy(b->out + AT, words, sizeof words);
}

static void put_result(struct buffers *b, uint32_t ending, uint32_t steps, uint32_t instants, uint32_t lines) {
    const uint32_t words[STATION_RUN_WORDS] = {0, 0, ending, steps, instants, lines};
    memcpy(b->out + AT, words, sizeof words);
}

/* What station_flows leaves where it is refused, and where no flow is needed. */
static void put_no_flows(struct buffers *b, uint32_t number, uint32_t place) {
    memset(b->flows + AT, 0, STATION_MAX_LEVELS * sizeof b->flows[0]);
    b->out[AT + STATION_FLOWS_NUMBER] = number;
    b->out[AT + STATION_FLOWS_PLACE] = place;
}

/* Runs x := 7 on the buffers, without a list. */
static void run(struct buffers *b, uint32_t reader, uint32_t limit, size_t log_len, size_t out_len) {
    station_run(book, sizeof book, script, sizeof script, reader, b->values + AT, 1, limit, NULL, 0, b->log + AT,
                log_len, b->out + AT, out_len);
}

/* Runs when a do nil on the buffers, with so many words of the list. */
static void run_wait(struct buffers *b, uint32_t limit, size_t list_len) {
    station_run(book, sizeof book, wait_script, sizeof wait_script, 0, b->values + AT, 1, limit, b->list + AT,
                list_len, b->log + AT, 2 * STATION_LINE_WORDS, b->out + AT, STATION_RUN_WORDS);
}

static void wrong_out_lengths(void) {
    const struct buffers before = fresh(0);
    struct buffers b = before;
    for (size_t n = 0; n <= MOST_OUT_WORDS; n++) {
        if (n != STATION_CHECK_WORDS) {
            station_check(book, sizeof book, script, sizeof script, b.out + AT, n);
            station_check(book, sizeof book, NULL, 0, b.out + AT, n);
        }
        if (n != STATION_RUN_WORDS) {
            run(&b, 0, 1000, 2 * STATION_LINE_WORDS, n);
        }
    }
    station_check(book, sizeof book, script, sizeof script, NULL, 0);
    station_run(book, sizeof book, script, sizeof script, 0, b.values + AT, 1, 1000, b.list + AT, 1, b.log + AT,
                STATION_LINE_WORDS, NULL, 0);
    report("an out of another length: nothing changes", same(&b, &before));
}

/* Asks for the flows of y := x on the buffers. */
static void ask(struct buffers *b, size_t flows_len, size_t out_len) {
    station_flows(copy_script, sizeof copy_script, b->flows + AT, flows_len, b->out + AT, out_len);
}

static void wrong_flows_lengths(void) {
    const struct buffers before = fresh(0);
    struct buffers b = before;
    for (size_t n = 0; n <= STATION_MAX_LEVELS + 1; n++) {
        if (n != STATION_MAX_LEVELS) {
            ask(&b, n, STATION_FLOWS_WORDS);
        }
        if (n != STATION_FLOWS_WORDS && n <= MOST_OUT_WORDS) {
            ask(&b, STATION_MAX_LEVELS, n);
        }
    }
    station_flows(NULL, 0, NULL, 0, b.out + AT, STATION_FLOWS_WORDS);
    station_flows(NULL, 0, b.flows + AT, STATION_MAX_LEVELS, NULL, 0);
    station_flows(NULL, 0, NULL, 0, NULL, 0);
    report("flows: a flows or an out of another length: nothing changes", same(&b, &before));
}

static void flows_of_scripts(void) {
    struct buffers b = fresh(0), expected = b;
    put_no_flows(&expected, STATION_NOT_REFUSED, 0);
    station_flows(script, sizeof script, b.flows + AT, STATION_MAX_LEVELS, b.out + AT, STATION_FLOWS_WORDS);
    report("flows of x := 7: none, and nothing changes around the buffers", same(&b, &expected));
    expected.flows[AT + 15] = 1;
    ask(&b, STATION_MAX_LEVELS, STATION_FLOWS_WORDS);
    report("flows of y := x: from level 15 to level 0, and nothing changes around the buffers", same(&b, &expected));
}

/* A script that is refused with this number, at this place. */
static void refused_flows(const char *what, const uint8_t *part, size_t length, uint32_t number, uint32_t place) {
    struct buffers b = fresh(0), expected = b;
    put_no_flows(&expected, number, place);
    station_flows(part, length, b.flows + AT, STATION_MAX_LEVELS, b.out + AT, STATION_FLOWS_WORDS);
    report(what, same(&b, &expected));
}

static void flows_of_wrong_scripts(void) {
    uint8_t no_level[sizeof copy_script];
    memcpy(no_level, copy_script, sizeof no_level);
    no_level[5] = STATION_MAX_LEVELS;
    refused_flows("flows: script NULL: every word of flows is 0", NULL, 0, STATION_REFUSED_TAIL, 0);
    refused_flows("flows: name 1 at level 16: every word of flows is 0", no_level, sizeof no_level,
                  STATION_REFUSED_NAME, 1);
}

/* A script that is accepted, with this W, T 0 and this bound on its moves. */
static void accepted(const char *what, const uint8_t *part, size_t length, uint32_t write, uint32_t bounded,
                     uint32_t moves) {
    struct buffers b = fresh(0), expected = b;
    put_accepted(&expected, write, 0, bounded, moves);
    station_check(book, sizeof book, part, length, b.out + AT, STATION_CHECK_WORDS);
    report(what, same(&b, &expected));
}

static void bounds_of_scripts(void) {
    accepted("check of nil: bounded, with no move", nil_script, sizeof nil_script, 1, 1, 0);
    accepted("check of x := 7: bounded, with one move", script, sizeof script, 0, 1, 1);
    accepted("check of a parallel: bounded, with three nodes times two", parallel_script, sizeof parallel_script, 0, 1,
             6);
    accepted("check of a while: not bounded, and moves is 0", loop_script, sizeof loop_script, 1, 0, 0);
}

/* A check that is refused with this number, at place 0. */
static void refused_check(const char *what, const uint8_t *levels, size_t levels_len, const uint8_t *part,
                          size_t length, uint32_t number) {
    struct buffers b = fresh(0), expected = b;
    put_refusal(&expected, number, 0);
    station_check(levels, levels_len, part, length, b.out + AT, STATION_CHECK_WORDS);
    report(what, same(&b, &expected));
}

static void refused_checks(void) {
    uint8_t flow[sizeof copy_script];
    memcpy(flow, copy_script, sizeof flow);
    flow[5] = 1;
    refused_check("check: book NULL, script NULL", NULL, 0, NULL, 0, STATION_REFUSED_BOOK);
    refused_check("check: script NULL", book, sizeof book, NULL, 0, STATION_REFUSED_TAIL);
    refused_check("check of x := 7 without a book: every word but the number is 0", NULL, 0, script, sizeof script,
                  STATION_REFUSED_BOOK);
    refused_check("check of a script that is refused for flow: every word but the number is 0", book, sizeof book, flow,
                  sizeof flow, STATION_REFUSED_FLOW);
}

static void run_of_nothing(void) {
    uint32_t out[STATION_RUN_WORDS];
    const uint32_t finished[] = {0, 0, STATION_FINISHED, 0, 0, 0};
    const uint32_t wrong_values[] = {STATION_REFUSED_VALUES, 0, 0, 0, 0, 0};
    station_run(book, sizeof book, nil_script, sizeof nil_script, 1, NULL, 0, 1000, NULL, 0, NULL, 0, out,
                STATION_RUN_WORDS);
    report("run of nil: values NULL, list NULL, log NULL", memcmp(out, finished, sizeof out) == 0);
    station_run(book, sizeof book, script, sizeof script, 0, NULL, 0, 1000, NULL, 0, NULL, 0, out, STATION_RUN_WORDS);
    report("run of x := 7: values NULL is a wrong length", memcmp(out, wrong_values, sizeof out) == 0);
}

/* What each length of the log leaves: none of its words, or one whole line. */
static void log_lengths(void) {
    int holds = 1;
    for (size_t n = 0; n <= 2 * STATION_LINE_WORDS; n++) {
        struct buffers b = fresh(0), expected = b;
        if (n < STATION_LINE_WORDS) {
            put_result(&expected, STATION_LOG_FULL, 0, 0, 0);
        } else {
            const uint32_t line[STATION_LINE_WORDS] = {1, 0, 0, 7};
            memcpy(expected.log + AT, line, sizeof line);
            expected.values[AT] = 7;
            put_result(&expected, STATION_FINISHED, 1, 0, 1);
        }
        run(&b, 0, 1000, n, STATION_RUN_WORDS);
        holds = holds && same(&b, &expected);
    }
    report("a log of 0 to 8 words: whole lines only, and nothing changes around the buffers", holds);
}

static void log_null(void) {
    struct buffers b = fresh(3), expected = b;
    put_result(&expected, STATION_LOG_FULL, 0, 0, 0);
    station_run(book, sizeof book, script, sizeof script, 0, b.values + AT, 1, 1000, NULL, 0, NULL, 0, b.out + AT,
                STATION_RUN_WORDS);
    report("run of x := 7: log NULL is full before the first step", same(&b, &expected));
}

/* What each length of a list leaves: a is present on entering instant 2, or the list ends in half a pair. */
static void list_lengths(void) {
    const uint32_t list[LIST_WORDS] = {2, 0, 3, 0, 4};
    int holds = 1;
    for (size_t n = 0; n <= LIST_WORDS; n++) {
        struct buffers b = fresh(0), expected;
        memcpy(b.list + AT, list, sizeof list);
        expected = b;
        if (n % STATION_PAIR_WORDS != 0) {
            put_refusal(&expected, STATION_REFUSED_LIST, (uint32_t)(n / STATION_PAIR_WORDS));
        } else if (n == 0) {
            put_result(&expected, STATION_SPENT, 1000, 1000, 0);
        } else {
            expected.values[AT] = 1;
            put_result(&expected, STATION_FINISHED, 3, 2, 0);
        }
        run_wait(&b, 1000, n);
        holds = holds && same(&b, &expected);
    }
    report("a list of 0 to 5 words: whole pairs only, and the list stays as it was", holds);
}

static void list_null(void) {
    struct buffers b = fresh(0), expected = b;
    put_result(&expected, STATION_SPENT, 1000, 1000, 0);
    station_run(book, sizeof book, wait_script, sizeof wait_script, 0, b.values + AT, 1, 1000, NULL, 0, b.log + AT,
                STATION_LINE_WORDS, b.out + AT, STATION_RUN_WORDS);
    report("run of when a do nil: with list NULL no signal arrives", same(&b, &expected));
}

/* A list of two pairs that is refused with this number, at this place. */
static void refused_list(const char *what, const uint32_t *list, uint32_t limit, uint32_t number, uint32_t place) {
    struct buffers b = fresh(1), expected;
    memcpy(b.list + AT, list, 2 * STATION_PAIR_WORDS * sizeof *list);
    expected = b;
    put_refusal(&expected, number, place);
    run_wait(&b, limit, 2 * STATION_PAIR_WORDS);
    report(what, same(&b, &expected));
}

static void refused_lists(void) {
    const uint32_t zero[] = {0, 0, 1, 0};
    const uint32_t falling[] = {UINT32_MAX, 0, UINT32_MAX - 1, 0};
    const uint32_t no_name[] = {1, 0, 1, UINT32_MAX};
    refused_list("a list with instant 0: values and log as they were", zero, 1000, STATION_REFUSED_LIST, 0);
    refused_list("a list that falls: values and log as they were", falling, 1000, STATION_REFUSED_LIST, 1);
    refused_list("a list with no name of the script: values and log as they were", no_name, 1000,
                 STATION_REFUSED_LIST, 1);
    refused_list("a limit too high and a wrong list: the limit is refused", zero, STATION_MAX_STEPS + 1,
                 STATION_REFUSED_LIMIT, 0);
}

/* A call of x := 7 that is refused with this number, at place 0. Its list is wrong too: x is no signal. */
static void refused(const char *what, uint32_t number, uint32_t reader, size_t values_len, uint32_t limit) {
    struct buffers b = fresh(3), expected;
    b.list[AT + STATION_PAIR_INSTANT] = 1;
    b.list[AT + STATION_PAIR_NAME] = 0;
    expected = b;
    put_refusal(&expected, number, 0);
    station_run(book, sizeof book, script, sizeof script, reader, b.values + AT, values_len, limit, b.list + AT,
                STATION_PAIR_WORDS, b.log + AT, 2 * STATION_LINE_WORDS, b.out + AT, STATION_RUN_WORDS);
    report(what, same(&b, &expected));
}

/* Every beginning of the script but the whole is refused, by check and by flows. Each is a block of its own size, for
 * tools that watch the bounds of blocks. */
static void beginnings(void) {
    int holds = 1;
    for (size_t n = 0; n < sizeof script; n++) {
        uint32_t out[STATION_CHECK_WORDS];
        uint32_t flows[STATION_MAX_LEVELS];
        uint8_t *part = malloc(n + (n == 0));
        if (part == NULL) {
            holds = 0;
            break;
        }
        memcpy(part, script, n);
        station_check(book, sizeof book, part, n, out, STATION_CHECK_WORDS);
        holds = holds && out[STATION_CHECK_NUMBER] == STATION_REFUSED_TAIL && out[STATION_CHECK_PLACE] == 0;
        station_flows(part, n, flows, STATION_MAX_LEVELS, out, STATION_FLOWS_WORDS);
        holds = holds && out[STATION_FLOWS_NUMBER] == STATION_REFUSED_TAIL && out[STATION_FLOWS_PLACE] == 0;
        free(part);
    }
    report("check and flows: each beginning of a script is refused for its tail", holds);
}

int main(void) {
    wrong_out_lengths();
    wrong_flows_lengths();
    flows_of_scripts();
    flows_of_wrong_scripts();
    bounds_of_scripts();
    refused_checks();
    run_of_nothing();
    log_lengths();
    log_null();
    refused("a wrong reader: values and log as they were", STATION_REFUSED_READER, 2, 1, 1000);
    refused("two values for one name: values and log as they were", STATION_REFUSED_VALUES, 0, 2, 1000);
    refused("a limit too high: values and log as they were", STATION_REFUSED_LIMIT, 0, 1, STATION_MAX_STEPS + 1);
    refused("a list that names a register: values and log as they were", STATION_REFUSED_LIST, 0, 1, 1000);
    list_lengths();
    list_null();
    refused_lists();
    beginnings();
    return failures != 0;
}
