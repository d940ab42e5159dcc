/* Places the job of document 01's example by the library, as a program would that holds its own panes and glasses: it writes the
 * job file, checks it, asks for each pane and glass whether the glass passes, and places. Standard output has the lines of
 * canopy; standard error has which clause stands against which glass. */
#include <stdio.h>

#include "bordavina.h"

/* id, kind, thickness, sheet w and h, span constants for two edges and for four, stock */
static const unsigned glasses[][8] = {
    {9, 1, 12, 2400, 3600, 21304, 23857, 1},
    {7, 1, 10, 2400, 3600, 17976, 20130, 1},
};

/* id, edges, angle, awning, top, w and h, wind down and up */
static const unsigned panes[][9] = {
    {1, 4, 30, 0, 3000, 900, 1500, 60, 95},
    {2, 4, 10, 0, 3000, 500, 1000, 60, 95},
};

#define GLASSES (sizeof glasses / sizeof *glasses)
#define PANES (sizeof panes / sizeof *panes)

static char job[65536];

static size_t write_line(size_t at, char letter, const unsigned *numbers, size_t count) {
    at += snprintf(job + at, sizeof job - at, "%c", letter);
    for (size_t i = 0; i < count; i++) at += snprintf(job + at, sizeof job - at, " %u", numbers[i]);
    return at + snprintf(job + at, sizeof job - at, "\n");
}

/* Writes the job file: the glasses, the panes, and where each part begins. */
static size_t write_job(void) {
    size_t at = 0;
    for (size_t g = 0; g < GLASSES; g++) at = write_line(at, 'G', glasses[g], 8);
    size_t pane_part = at;
    for (size_t p = 0; p < PANES; p++) at = write_line(at, 'P', panes[p], 9);
    return at + snprintf(job + at, sizeof job - at, "T %05d %05zu\n", 0, pane_part);
}

int main(void) {
    const uint8_t *file = (const uint8_t *)job;
    size_t length = write_job();

    bordavina_check_result checked = bordavina_check(file, length);
    if (checked.number != BORDAVINA_NOT_REFUSED) {
        printf("refused %zu %zu\n", checked.number, checked.offset);
        return 1;
    }

    for (size_t p = 0; p < PANES; p++)
        for (size_t g = 0; g < GLASSES; g++) {
            bordavina_verdict_result v = bordavina_verdict(file, length, panes[p][0], glasses[g][0]);
            if (v.clause != 0) fprintf(stderr, "pane %u, glass %u: clause %zu fails\n", panes[p][0], glasses[g][0], v.clause);
        }

    uint32_t answers[PANES];
    uint32_t short_group[PANES];
    bordavina_place_result placed = bordavina_place(file, length, answers, PANES, short_group, PANES);
    if (placed.number != BORDAVINA_NOT_REFUSED) {
        printf("refused %zu %zu\n", placed.number, placed.offset);
        return 1;
    }
    for (size_t p = 0; p < placed.wanted; p++) printf("%u %u\n", panes[p][0], answers[p]);
    printf("%zu %zu\n", placed.placed, placed.wanted);
    if (placed.placed != placed.wanted) {
        printf("short");
        for (size_t i = 0; i < placed.group; i++) printf(" %u", short_group[i]);
        printf("\n");
    }
    return 0;
}
