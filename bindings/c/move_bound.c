/* A dispatcher asks how many moves a script can make in its whole run, whatever signals arrive, and holds a run to the
 * answer. Exit status 1 if the run is refused.
 *
 *     cc -I include bindings/c/move_bound.c target/staticlib/libengine.a -o target/move_bound
 */
#include <inttypes.h>
#include <stdio.h>

#include "station.h"

/* Two levels, 0 at or below 1. */
static const uint8_t book[] = {0x02, 0x00, 0x03, 0x00, 0x02};

/* (when lock do locked := 1) parallel (when tilt do tilted := 1) */
static const uint8_t both[] = {
    0x00, 0x00, 0xFF, 0xFF,                         /* name 0, locked: register, level 0, of the session */
    0x00, 0x00, 0xFF, 0xFF,                         /* name 1, tilted: register, level 0, of the session */
    0x01, 0x00, 0xFF, 0xFF,                         /* name 2, lock: signal, level 0, of the session */
    0x01, 0x00, 0xFF, 0xFF,                         /* name 3, tilt: signal, level 0, of the session */
    0x00, 0x00, 0x00, 0x00, 0x00, 0x00, 0x00, 0x01, /* expression 0: the constant 1 */
    0x00, 0x00, 0x00, 0x00, 0x00, 0x00, 0x00, 0x01, /* expression 1: the constant 1 */
    0x01, 0x00, 0x00, 0x00, 0x00, 0x00, 0x00, 0x00, /* node 0: locked := expression 0 */
    0x09, 0x00, 0x00, 0x02, 0x00, 0x00, 0x00, 0x00, /* node 1: when lock do node 0 */
    0x01, 0x00, 0x00, 0x01, 0x00, 0x01, 0x00, 0x00, /* node 2: tilted := expression 1 */
    0x09, 0x00, 0x00, 0x03, 0x00, 0x02, 0x00, 0x00, /* node 3: when tilt do node 2 */
    0x0A, 0x00, 0x00, 0x01, 0x00, 0x03, 0x00, 0x00, /* node 4: node 1 parallel node 3 */
    0x00, 0x10, 0x00, 0x20, 0x00, 0x48, 0x53, 0x54  /* tail: 16, 32, 72, then the mark */
};

#define NAMES 4
#define LOCK 2
#define TILT 3

/* while 1 do (when lock do nil) */
static const uint8_t again[] = {
    0x01, 0x00, 0xFF, 0xFF,                         /* name 0, lock: signal, level 0, of the session */
    0x00, 0x00, 0x00, 0x00, 0x00, 0x00, 0x00, 0x01, /* expression 0: the constant 1 */
    0x00, 0x00, 0x00, 0x00, 0x00, 0x00, 0x00, 0x00, /* node 0: nil */
    0x09, 0x00, 0x00, 0x00, 0x00, 0x00, 0x00, 0x00, /* node 1: when lock do node 0 */
    0x04, 0x00, 0x00, 0x00, 0x00, 0x01, 0x00, 0x00, /* node 2: while expression 0 do node 1 */
    0x00, 0x04, 0x00, 0x0C, 0x00, 0x24, 0x53, 0x54  /* tail: 4, 12, 36, then the mark */
};

static void print_bound(const char *what, const uint8_t *script, size_t script_len, uint32_t *out) {
    station_check(book, sizeof book, script, script_len, out, STATION_CHECK_WORDS);
    if (out[STATION_CHECK_NUMBER] != STATION_NOT_REFUSED) {
        printf("%s: refused %" PRIu32 " %" PRIu32 "\n", what, out[STATION_CHECK_NUMBER], out[STATION_CHECK_PLACE]);
    } else if (out[STATION_CHECK_BOUNDED]) {
        printf("%s: at most %" PRIu32 " moves\n", what, out[STATION_CHECK_MOVES]);
    } else {
        printf("%s: no bound\n", what);
    }
}

int main(void) {
    static const uint32_t list[] = {3, TILT, 7, LOCK}; /* the script waits for them without a move */
    int32_t values[NAMES] = {0};
    uint32_t log[NAMES * STATION_LINE_WORDS];
    uint32_t checked[STATION_CHECK_WORDS];
    uint32_t ran[STATION_RUN_WORDS];

    print_bound("lock and tilt", both, sizeof both, checked);
    station_run(book, sizeof book, both, sizeof both, 0, values, NAMES, 1000, list, sizeof list / sizeof list[0], log,
                sizeof log / sizeof log[0], ran, STATION_RUN_WORDS);
    if (ran[STATION_RUN_NUMBER] != STATION_NOT_REFUSED) {
        printf("refused %" PRIu32 " %" PRIu32 "\n", ran[STATION_RUN_NUMBER], ran[STATION_RUN_PLACE]);
        return 1;
    }
    printf("a run: %" PRIu32 " moves of at most %" PRIu32 ", %" PRIu32 " steps less %" PRIu32 " instants\n",
           ran[STATION_RUN_STEPS] - ran[STATION_RUN_INSTANTS], checked[STATION_CHECK_MOVES], ran[STATION_RUN_STEPS],
           ran[STATION_RUN_INSTANTS]);
    print_bound("lock again and again", again, sizeof again, checked);
    return 0;
}
