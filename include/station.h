/*
 * station.h: checks and runs station scripts. C99 and C++; link with libengine.a.
 *
 * Three calls take any bytes and any numbers. What the rules do not allow is refused with a number and a place.
 * docs/FORMATS.md has the formats of level book, script file, value list, signal list, log, flows and the answer of
 * station_check, docs/REFUSALS.md an example of each refusal.
 *
 * BUFFERS. A buffer is a pointer, then a length in elements (not in bytes).
 *  - The caller owns every buffer. A call keeps no pointer after it returns, and allocates nothing.
 *  - A pointer may be NULL where its length is 0: an empty buffer is neither read nor written.
 *  - `book`, `script` and `list` are only read; they may overlap each other. `values`, `log`, `flows` and `out` are
 *    written: each of them must overlap no other buffer of the call.
 *  - `values`, `list`, `log`, `flows` and `out` must be aligned for their element types; `book` and `script` need not.
 *  - `out` must have exactly the words of its call, STATION_CHECK_WORDS, STATION_FLOWS_WORDS or STATION_RUN_WORDS, and
 *    `flows` exactly STATION_MAX_LEVELS. With any other length of either the call does nothing at all: no buffer is
 *    written.
 *
 * REENTRANCY. There is no static state and no lock: calls may run at the same time, in any thread, as long
 * as no buffer that one of them writes belongs to another call.
 *
 * WHAT IT NEEDS. memcpy and memset of the C library, and nothing else: no heap, no files, no clock. A thread with 192 KB
 * of stack has enough for every call; docs/PERFORMANCE.md has what smaller scripts need.
 */
#ifndef STATION_H
#define STATION_H

#include <stddef.h>
#include <stdint.h>

#ifdef __cplusplus
extern "C" {
#endif

/* Limits. A book or script beyond them is refused, and so is a step limit above STATION_MAX_STEPS. */
#define STATION_MAX_LEVELS 16
#define STATION_MAX_NAMES 64
#define STATION_MAX_EXPRESSIONS 256
#define STATION_MAX_NODES 256
#define STATION_MAX_STEPS 1000000

/* The lengths of `out`, and the words of one pair of the list and of one line of the log. */
#define STATION_CHECK_WORDS 6
#define STATION_FLOWS_WORDS 2
#define STATION_RUN_WORDS 6
#define STATION_PAIR_WORDS 2
#define STATION_LINE_WORDS 4

/* The words of `out` after station_check. Of a refused script all but number and place are 0. */
enum station_check_word {
    STATION_CHECK_NUMBER = 0,  /* a station_refusal */
    STATION_CHECK_PLACE = 1,   /* where, as the refusal says; 0 if accepted */
    STATION_CHECK_WRITE = 2,   /* W, a level: the meet of what the script may write */
    STATION_CHECK_TEST = 3,    /* T, a level: the join of what the script tests */
    STATION_CHECK_BOUNDED = 4, /* 1, or 0 where the script holds a while */
    STATION_CHECK_MOVES = 5    /* no run of a bounded script makes more moves than this; 0 if not bounded */
};

/* The words of `out` after station_flows. The words of `flows` are described with the call. */
enum station_flows_word {
    STATION_FLOWS_NUMBER = 0, /* a station_refusal */
    STATION_FLOWS_PLACE = 1   /* where, as the refusal says; 0 if not refused */
};

/* The words of `out` after station_run. Of a refused run all but number and place are 0. */
enum station_run_word {
    STATION_RUN_NUMBER = 0,   /* a station_refusal */
    STATION_RUN_PLACE = 1,    /* where, as the refusal says; 0 if not refused */
    STATION_RUN_ENDING = 2,   /* a station_ending */
    STATION_RUN_STEPS = 3,    /* the counted steps: moves and instant changes */
    STATION_RUN_INSTANTS = 4, /* the instant changes among them */
    STATION_RUN_LINES = 5     /* the lines at the head of the log */
};

/* The words of a pair of the list. */
enum station_pair_word {
    STATION_PAIR_INSTANT = 0, /* the instant, from 1 */
    STATION_PAIR_NAME = 1     /* the number of a session signal in the script file */
};

/*
 * The words of a line of the log. Each assignment to a name at or below the reader's level is a line, and so is each
 * emission of one that makes its signal present; an emission that finds it present is not.
 */
enum station_line_word {
    STATION_LINE_STEP = 0,    /* the step, from 1 */
    STATION_LINE_INSTANT = 1, /* the instant, from 0 */
    STATION_LINE_NAME = 2,    /* the name's number in the script file */
    STATION_LINE_VALUE = 3    /* the value as two's complement; 1 for an emission */
};

/*
 * Why a call was refused. The lowest number that applies is given, with the smallest place at fault in that way; a
 * place past 4294967295, which only a list can have, is given as 4294967295. station_check gives 0 to 11, station_flows
 * 0 and 4 to 10, station_run all of them.
 */
enum station_refusal {
    STATION_NOT_REFUSED = 0,             /* place 0 */
    STATION_REFUSED_BOOK = 1,            /* number of levels or length of the book wrong; place 0 */
    STATION_REFUSED_ORDER = 2,           /* the book's relation is no order; place: the level */
    STATION_REFUSED_NO_COMMON_LEVEL = 3, /* a pair i < j lacks an upper or lower level; place: 16 i + j */
    STATION_REFUSED_TAIL = 4,            /* the script's tail is wrong; place 0 */
    STATION_REFUSED_TOO_MANY = 5,        /* too many names, expressions or nodes, or no node; place 0 */
    STATION_REFUSED_NAME = 6,            /* kind, level or owner of a name; place: the name */
    STATION_REFUSED_EXPRESSION = 7,      /* kind, field or operand; place: the expression */
    STATION_REFUSED_NODE = 8,            /* kind, field or child, or declares another's name; place: the node */
    STATION_REFUSED_LOOSE_PART = 9,      /* used not exactly once; place: the expression, or 256 + node */
    STATION_REFUSED_OUT_OF_REACH = 10,   /* owned name outside its body; place: the expression, or 256 + node */
    STATION_REFUSED_FLOW = 11,           /* a level flows where it may not; place: the node */
    STATION_REFUSED_READER = 12,         /* the reader's level is not in the book; place 0 */
    STATION_REFUSED_VALUES = 13,         /* place: 0 for a wrong length, else the first wrong entry */
    STATION_REFUSED_LIMIT = 14,          /* the step limit is above STATION_MAX_STEPS; place 0 */
    STATION_REFUSED_LIST = 15            /* instant 0 or falling, no session signal, half a pair; place: the pair */
};

/* How a run ended, decided before each step in this order. */
enum station_ending {
    STATION_FINISHED = 0, /* nothing is left of the script */
    STATION_SPENT = 1,    /* the step limit is reached */
    STATION_LOG_FULL = 2  /* the next step needs a line, and the log has no four words left */
};

/*
 * Checks a script under a level book. `out` becomes number, place, W, T, bounded, moves.
 *
 * The moves of a run are its steps less its instants. For an accepted script without while, with k nodes other than
 * nil, p of them parallel, the figure is k * (p + 1), and no run makes more moves: from any values, with any reader,
 * limit, list and log. It bounds moves, not steps: a run may still wait any number of instants. With a while there is
 * no figure. Ask `bounded` for that, since the figure of nil is 0, too.
 */
void station_check(const uint8_t *book, size_t book_len,
                   const uint8_t *script, size_t script_len,
                   uint32_t *out, size_t out_len);

/*
 * Tells which flows a script would need, before there is a level book. `out` becomes number, place.
 *
 *   flows    a word for each level: bit j of word i says that data must be let flow from level i to level j. A level is
 *            never in its own set; the set of one that the script does not use is empty
 *
 * Without a book only the refusals 4 to 10 are left, as station_check gives them, but that a name's level may be any
 * below STATION_MAX_LEVELS. A refused call leaves all words of `flows` 0.
 *
 * Under any book that is not refused and has the script's levels, station_check gives STATION_REFUSED_FLOW exactly when
 * some flow of the script is absent from the book's order. The flows need not be the fewest: since an order is
 * transitive, one of them may follow from others.
 */
void station_flows(const uint8_t *script, size_t script_len,
                   uint32_t *flows, size_t flows_len,
                   uint32_t *out, size_t out_len);

/*
 * Runs a script under a level book. `out` becomes number, place, ending, steps, instants, lines.
 *
 *   reader   a level of the book: the log takes lines for names at or below it (station_line_word says which)
 *   values   one number for each name of the script: a register's value, 0 or 1 for a signal, 0 for an owned name;
 *            afterwards the state after the counted steps, with owned names 0
 *   limit    the most steps, 0 to STATION_MAX_STEPS
 *   list     pairs of an instant, from 1, and a session signal, STATION_PAIR_WORDS words each; the instants never fall.
 *            When an instant is entered, the signals of its pairs are present and all others absent: in the same step
 *            as the instant change, and without a line. Equal pairs may repeat; pairs of instants that are not entered
 *            do nothing. `list_len` counts words: an odd number ends in half a pair, which is refused
 *   log      any length; the run's lines stand at its head, STATION_LINE_WORDS words each, and the words after the last
 *            line stay as they were
 *
 * A refused run leaves `values` and `log` as they were.
 */
void station_run(const uint8_t *book, size_t book_len,
                 const uint8_t *script, size_t script_len,
                 uint32_t reader,
                 int32_t *values, size_t values_len,
                 uint32_t limit,
                 const uint32_t *list, size_t list_len,
                 uint32_t *log, size_t log_len,
                 uint32_t *out, size_t out_len);

#ifdef __cplusplus
}
#endif

#endif
