/* Checks and runs the script `x := 7` and prints what the program `station` prints. Exit status 1 if refused.
 *
 *     cc -I include bindings/c/first_run.c target/staticlib/libengine.a -o target/first_run
 */
#include <inttypes.h>
#include <stdio.h>

#include "station.h"

#define LINES 256

/* Two levels, 0 at or below 1. */
static const uint8_t book[] = {0x02, 0x00, 0x03, 0x00, 0x02};

static const uint8_t script[] = {
    0x00, 0x00, 0xFF, 0xFF,                         /* name 0: register, level 0, of the session */
    0x00, 0x00, 0x00, 0x00, 0x00, 0x00, 0x00, 0x07, /* expression 0: the constant 7 */
    0x01, 0x00, 0x00, 0x00, 0x00, 0x00, 0x00, 0x00, /* node 0: assign name 0, expression 0 */
    0x00, 0x04, 0x00, 0x0C, 0x00, 0x14, 0x53, 0x54  /* tail: offsets 4, 12 and 20, then the mark */
};

/* Two's complement without a cast that C leaves to the compiler. */
static int32_t signed_of(uint32_t word) {
    if (word <= INT32_MAX) {
        return (int32_t)word;
    }
    return -(int32_t)(UINT32_MAX - word) - 1;
}

static int print_refusal(uint32_t number, uint32_t place) {
    printf("refused %" PRIu32 " %" PRIu32 "\n", number, place);
    return 1;
}

static void print_lines(const uint32_t *log, uint32_t lines) {
    for (uint32_t i = 0; i < lines; i++) {
        const uint32_t *line = log + (size_t)i * STATION_LINE_WORDS;
        printf("%" PRIu32 " %" PRIu32 " %" PRIu32 " %" PRId32 "\n", line[STATION_LINE_STEP], line[STATION_LINE_INSTANT],
               line[STATION_LINE_NAME], signed_of(line[STATION_LINE_VALUE]));
    }
}

int main(void) {
    static const char *const endings[] = {"finished", "spent", "log full"};
    uint32_t checked[STATION_CHECK_WORDS];
    uint32_t ran[STATION_RUN_WORDS];
    int32_t values[] = {0};
    static uint32_t log[LINES * STATION_LINE_WORDS];

    station_check(book, sizeof book, script, sizeof script, checked, STATION_CHECK_WORDS);
    if (checked[STATION_CHECK_NUMBER] != STATION_NOT_REFUSED) {
        return print_refusal(checked[STATION_CHECK_NUMBER], checked[STATION_CHECK_PLACE]);
    }
    station_run(book, sizeof book, script, sizeof script, 0, values, 1, 1000, NULL, 0, log, LINES * STATION_LINE_WORDS,
                ran, STATION_RUN_WORDS);
    if (ran[STATION_RUN_NUMBER] != STATION_NOT_REFUSED) {
        return print_refusal(ran[STATION_RUN_NUMBER], ran[STATION_RUN_PLACE]);
    }
    printf("accepted %" PRIu32 " %" PRIu32 "\n", checked[STATION_CHECK_WRITE], checked[STATION_CHECK_TEST]);
    print_lines(log, ran[STATION_RUN_LINES]);
    printf("%s %" PRIu32 " %" PRIu32 "\n", endings[ran[STATION_RUN_ENDING]], ran[STATION_RUN_STEPS],
           ran[STATION_RUN_INSTANTS]);
    return 0;
}
