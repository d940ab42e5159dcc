/* Bordavina: sloped glazing from a shared rack of sheets, by AS 1288 Section 6.
 *
 * Every call takes the bytes of a job file, asks nothing of them, keeps no state and may be made by several threads at once.
 * The calls allocate nothing, and read and write no memory but what they are lent. A pointer may be null where its length
 * is 0. Lent lists do not overlap one another or the file. The library is for x86-64.
 *
 * A thread with a stack of 128 KB can make every call. On threads with small stacks, bordavina_check returned on 16 KB,
 * bordavina_verdict on 44 KB, bordavina_place on 60 KB and bordavina_report on 72 KB, and on 4 KB less they did not.
 *
 * A job file has a line for each glass, with the letter G, and for each pane, with the letter P or Q. The numbers of both pane
 * lines are the same but for the last two: wind pressures down and up, 0 to 1000 in units of 0.01 kPa, on a P line; a wind class,
 * 1 to 10 for N1 to N6 and C1 to C4, and a zone, 1 or 2, on a Q line. A class and a zone stand for the ultimate pressures on
 * roofs of AS 1288, Table A2: zone 1 is away from edges, zone 2 within 1.2 m of one. For which houses the table is meant is not
 * checked. A P pane with those pressures gets the same verdicts. */
#ifndef BORDAVINA_H
#define BORDAVINA_H

#include <stddef.h>
#include <stdint.h>

#ifdef __cplusplus
extern "C" {
#endif

/* At most this many panes does an accepted file have: lists of this length are never too short. */
#define BORDAVINA_MAX_PANES 256

/* The bytes of a buffer that holds every text. */
#define BORDAVINA_TEXT_SIZE 4096

/* The numbers of refusals. The `number` of a result is one of these, but never 7, and its `offset` is where the cause was found,
 * counted in bytes from the start of the file. The rest of a refused result is 0. One that is not refused has offset 0. The
 * numbers 12 to 19 are kept for later calls. */
enum {
    BORDAVINA_NOT_REFUSED = 0,

    /* Every call; offset 0. */
    BORDAVINA_FILE_LENGTH = 1, /* the file has under 14 or over 65,535 bytes */

    /* Every call; offset of the trailer, the length less 14. */
    BORDAVINA_NO_TRAILER = 2,   /* the last 14 bytes are not a trailer */
    BORDAVINA_PART_OFFSETS = 3, /* not in order: glass offset <= pane offset <= offset of the trailer */

    /* Every call; offset of the line. */
    BORDAVINA_LINE_FORM = 4,      /* the line is not of its part's form, or lacks its newline */
    BORDAVINA_NUMBER_VALUE = 5,   /* a number is not among its allowed values */
    BORDAVINA_REPEATED_ID = 6,    /* the id is already on an earlier line of the part */
    BORDAVINA_TOO_LONG = 7,       /* given by no call: long panes are accepted; the number stays free */
    BORDAVINA_TOO_MANY_LINES = 8, /* the 65th glass line or the 257th pane line begins */

    /* bordavina_place; offset 0. */
    BORDAVINA_LIST_TOO_SHORT = 9, /* a lent list is shorter than the number of panes */

    /* bordavina_verdict; offset 0. */
    BORDAVINA_NO_PANE = 10, /* no pane of the file has that id */
    BORDAVINA_NO_GLASS = 11 /* no glass of the file has that id */
};

/* The answer to a check. */
typedef struct {
    size_t number;
    size_t offset;
    size_t glasses; /* glass lines */
    size_t panes;   /* pane lines */
} bordavina_check_result;

/* The answer to a question. */
typedef struct {
    size_t number;
    size_t offset;
    size_t clause; /* 0: the glass passes; 1 to 4: the first clause that fails */
} bordavina_verdict_result;

/* The result of a placing. */
typedef struct {
    size_t number;
    size_t offset;
    size_t wanted; /* panes in the file */
    size_t placed; /* panes that were given a glass */
    size_t group;  /* panes in the short group: 0 where placed is wanted */
} bordavina_place_result;

/* Whether a file is accepted. `file` is only read, here and below. */
bordavina_check_result bordavina_check(const uint8_t *file, size_t file_length);

/* Whether the glass of that id may be used for the pane of that id. The clauses: 1 kind, 2 size, 3 point load, 4 uniform
 * load. The file's own refusal comes first, then BORDAVINA_NO_PANE, then BORDAVINA_NO_GLASS. */
bordavina_verdict_result bordavina_verdict(const uint8_t *file, size_t file_length, uint32_t pane, uint32_t glass);

/* Gives the panes of a file sheets of its rack.
 *
 * The first `wanted` entries of `answers` are then those of the file's panes, in its order: the id of the pane's glass, or 0
 * where it has none. Later entries are untouched. Every given glass passes for its pane, and no glass is given more often
 * than its stock. Where a pane has 0, all sheets of the glasses that pass for it are given to others. `placed` counts the
 * entries that are not 0. No other way to do this serves more panes, so it is `wanted` exactly when some way exists to serve
 * every pane.
 *
 * If it is, `group` is 0 and `short_group` is untouched. If it is not, the first `group` entries of `short_group` are ids of
 * panes, from the lowest up and each once, that show why: the stocks of all glasses that pass for at least one of these
 * panes, each glass counted once, add up to less than `group`, by exactly `wanted` less `placed`. Every pane that has 0 is
 * among them, and no group of panes of the file is short by more. Later entries are untouched.
 *
 * At least `wanted` less `placed` sheets are missing. Where for every pane that has 0 some glass of the file passes, so many
 * are enough: one more sheet of such a glass, whichever it is, for each of those panes.
 *
 * Which passing glass a pane has, which panes are placed when not all can be, and which group is listed, may change from one
 * version to the next. How many are placed is not open: the file settles it, by the clauses in force. A refusal leaves both
 * lists untouched; each list needs an entry for every pane, or the call is refused with BORDAVINA_LIST_TOO_SHORT. */
bordavina_place_result bordavina_place(const uint8_t *file, size_t file_length,
                                       uint32_t *answers, size_t answers_length,
                                       uint32_t *short_group, size_t short_group_length);

/* Writes what the program canopy prints of a file to the front of `text`, and returns how many bytes that is: a line for each
 * pane (its id, the id of its glass or 0), a line with placed and wanted and, where they differ, a line `short` with the ids
 * of the group, from the lowest up; or the line `refused`, number, offset. The text is never cut. No 0 is put behind it; later
 * bytes are untouched. */
size_t bordavina_report(const uint8_t *file, size_t file_length, uint8_t text[BORDAVINA_TEXT_SIZE]);

#ifdef __cplusplus
}
#endif

#endif
