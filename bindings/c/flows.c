/* A firm asks which flows its script relies on, before it agrees on levels with its neighbour. Exit status 1 if the
 * question is refused.
 *
 * Level 0 is the public record, 1 our firm's claim, 2 the neighbour's claim, 3 the office, which reads both claims.
 *
 *     cc -I include bindings/c/flows.c target/staticlib/libengine.a -o target/flows
 */
#include <inttypes.h>
#include <stdio.h>

#include "station.h"

/* (if tolerance < claim then notice := 1 else nil); filed := claim */
static const uint8_t script[] = {
    0x00, 0x00, 0xFF, 0xFF,                         /* name 0, tolerance: register, level 0, of the session */
    0x00, 0x01, 0xFF, 0xFF,                         /* name 1, claim: register, level 1, of the session */
    0x00, 0x02, 0xFF, 0xFF,                         /* name 2, notice: register, level 2, of the session */
    0x00, 0x03, 0xFF, 0xFF,                         /* name 3, filed: register, level 3, of the session */
    0x01, 0x00, 0x00, 0x00, 0x00, 0x00, 0x00, 0x00, /* expression 0: tolerance */
    0x01, 0x00, 0x00, 0x01, 0x00, 0x00, 0x00, 0x00, /* expression 1: claim */
    0x06, 0x00, 0x00, 0x00, 0x00, 0x01, 0x00, 0x00, /* expression 2: expression 0 < expression 1 */
    0x00, 0x00, 0x00, 0x00, 0x00, 0x00, 0x00, 0x01, /* expression 3: the constant 1 */
    0x01, 0x00, 0x00, 0x01, 0x00, 0x00, 0x00, 0x00, /* expression 4: claim */
    0x01, 0x00, 0x00, 0x02, 0x00, 0x03, 0x00, 0x00, /* node 0: notice := expression 3 */
    0x00, 0x00, 0x00, 0x00, 0x00, 0x00, 0x00, 0x00, /* node 1: nil */
    0x03, 0x00, 0x00, 0x02, 0x00, 0x00, 0x00, 0x01, /* node 2: if expression 2 then node 0 else node 1 */
    0x01, 0x00, 0x00, 0x03, 0x00, 0x04, 0x00, 0x00, /* node 3: filed := expression 4 */
    0x05, 0x00, 0x00, 0x02, 0x00, 0x03, 0x00, 0x00, /* node 4: node 2; node 3 */
    0x00, 0x10, 0x00, 0x38, 0x00, 0x60, 0x53, 0x54  /* tail: 16, 56, 96, then the mark */
};

/* 0 below 1 and 2, these below 3; neither claim may flow to the other. */
static const uint8_t side_by_side[] = {0x04, 0x00, 0x0F, 0x00, 0x0A, 0x00, 0x0C, 0x00, 0x08};

/* The same, and 1 below 2: our claim may flow to the neighbour. */
static const uint8_t ours_below[] = {0x04, 0x00, 0x0F, 0x00, 0x0E, 0x00, 0x0C, 0x00, 0x08};

static void print_flows(const uint32_t *flows) {
    for (unsigned from = 0; from < STATION_MAX_LEVELS; from++) {
        for (unsigned to = 0; to < STATION_MAX_LEVELS; to++) {
            if (flows[from] >> to & 1) {
                printf("level %u to level %u\n", from, to);
            }
        }
    }
}

static void print_check(const char *agreed, const uint8_t *book, size_t book_len) {
    uint32_t out[STATION_CHECK_WORDS];
    station_check(book, book_len, script, sizeof script, out, STATION_CHECK_WORDS);
    if (out[STATION_CHECK_NUMBER] == STATION_NOT_REFUSED) {
        printf("%s: accepted %" PRIu32 " %" PRIu32 "\n", agreed, out[STATION_CHECK_WRITE], out[STATION_CHECK_TEST]);
    } else {
        printf("%s: refused %" PRIu32 " %" PRIu32 "\n", agreed, out[STATION_CHECK_NUMBER], out[STATION_CHECK_PLACE]);
    }
}

int main(void) {
    uint32_t flows[STATION_MAX_LEVELS];
    uint32_t out[STATION_FLOWS_WORDS];

    station_flows(script, sizeof script, flows, STATION_MAX_LEVELS, out, STATION_FLOWS_WORDS);
    if (out[STATION_FLOWS_NUMBER] != STATION_NOT_REFUSED) {
        printf("refused %" PRIu32 " %" PRIu32 "\n", out[STATION_FLOWS_NUMBER], out[STATION_FLOWS_PLACE]);
        return 1;
    }
    print_flows(flows);
    print_check("claims side by side", side_by_side, sizeof side_by_side);
    print_check("our claim below theirs", ours_below, sizeof ours_below);
    return 0;
}
