/* Reads a plan text from a file or from standard input, filters it, has its log checked, and prints the bounds that are left. Given a second file,
   writes the plan with these bounds to it, as plan text. */

#include "shimlantern.h"

#include <stdio.h>
#include <stdlib.h>
#include <string.h>

enum {
    ROOM = 2048, /* of the log */
    ROOMS = SHIMLANTERN_MOST_ROOMS,
    TASKS = SHIMLANTERN_MOST_TASKS,
    HEIGHTS = SHIMLANTERN_MOST_HEIGHTS,
    PAIR_NUMBERS = SHIMLANTERN_MOST_PAIR_NUMBERS,
    BOUNDS = SHIMLANTERN_MOST_BOUNDS
};

static uint8_t calendars[SHIMLANTERN_MOST_PACKED], kinds[ROOM], narrowed[SHIMLANTERN_MOST_WRITTEN];
static uint16_t capacities[ROOMS], task_calendars[TASKS], work_times[TASKS], heights[HEIGHTS], pairs[PAIR_NUMBERS];
static uint16_t boxes[BOUNDS], opening[BOUNDS], tasks[ROOM], hours[ROOM];

static int refused(const char *what, const uint64_t *answer) {
    printf("%s refused: number %u, place %u\n", what, (unsigned)answer[SHIMLANTERN_NUMBER], (unsigned)answer[SHIMLANTERN_PLACE]);
    return 1;
}

/* All that is left to read, in memory that grows as it fills: a text may have any length. None where memory or the file fails. */
static uint8_t *whole_text(FILE *in, size_t *length) {
    size_t room = SHIMLANTERN_MOST_WRITTEN;
    uint8_t *text = malloc(room);
    *length = 0;
    while (text && (*length += fread(text + *length, 1, room - *length, in)) == room) {
        uint8_t *more = realloc(text, room *= 2);
        if (!more) free(text);
        text = more;
    }
    return text && !ferror(in) ? text : NULL;
}

int main(int argc, char **argv) {
    size_t length;
    FILE *in = argc > 1 ? fopen(argv[1], "rb") : stdin;
    uint8_t *text = in ? whole_text(in, &length) : NULL;
    if (!text) {
        perror(argc > 1 ? argv[1] : "standard input");
        return 2;
    }

    uint64_t plan[SHIMLANTERN_READ_NUMBERS], run[SHIMLANTERN_FILTER_NUMBERS], checked[SHIMLANTERN_LOG_NUMBERS],
        written[SHIMLANTERN_WRITE_NUMBERS];
    shimlantern_read_plan(text, length, capacities, ROOMS, calendars, sizeof calendars, task_calendars, TASKS, work_times, TASKS, heights, HEIGHTS,
                          pairs, PAIR_NUMBERS, boxes, BOUNDS, plan);
    free(text);
    if (plan[SHIMLANTERN_NUMBER]) return refused("plan", plan);
    uint16_t h = plan[SHIMLANTERN_READ_HOURS];
    size_t rooms = plan[SHIMLANTERN_READ_ROOMS], n = plan[SHIMLANTERN_READ_TASKS];
    size_t packed = plan[SHIMLANTERN_READ_CALENDARS] * SHIMLANTERN_CALENDAR_BYTES(h);
    size_t paired = SHIMLANTERN_PAIR_NUMBERS * plan[SHIMLANTERN_READ_PAIRS], bounds = SHIMLANTERN_BOX_NUMBERS * n;

    memcpy(opening, boxes, sizeof boxes);
    shimlantern_filter(h, capacities, rooms, calendars, packed, task_calendars, n, work_times, n, heights, rooms * n, pairs, paired, boxes, bounds,
                       kinds, ROOM, tasks, ROOM, hours, ROOM, run);
    size_t count = run[SHIMLANTERN_FILTER_COUNT];
    shimlantern_check_log(h, capacities, rooms, calendars, packed, task_calendars, n, work_times, n, heights, rooms * n, pairs, paired, opening,
                          bounds, kinds, count, tasks, count, hours, count, checked);
    if (checked[SHIMLANTERN_NUMBER]) return refused("log", checked);

    const char *end = run[SHIMLANTERN_FILTER_IMPOSSIBLE] ? "impossible" : "settled";
    if (run[SHIMLANTERN_NUMBER] == SHIMLANTERN_REFUSED_NO_ROOM) end = "no room";
    printf("%s after %zu steps, and the log is accepted\n", end, count);
    for (size_t i = 0; i < n; i++) {
        const uint16_t *b = boxes + SHIMLANTERN_BOX_NUMBERS * i;
        printf("task %zu: start %u to %u, elapsed %u to %u, overtime %u to %u\n", i, b[SHIMLANTERN_BOX_EARLIEST], b[SHIMLANTERN_BOX_LATEST],
               b[SHIMLANTERN_BOX_SHORTEST], b[SHIMLANTERN_BOX_LONGEST], b[SHIMLANTERN_BOX_FEWEST], b[SHIMLANTERN_BOX_MOST]);
    }

    if (argc > 2) {
        shimlantern_write_plan(h, capacities, rooms, calendars, packed, task_calendars, n, work_times, n, heights, rooms * n, pairs, paired, boxes,
                               bounds, narrowed, sizeof narrowed, written);
        if (written[SHIMLANTERN_NUMBER]) return refused("writing", written);
        FILE *out = fopen(argv[2], "wb");
        if (!out || fwrite(narrowed, 1, written[SHIMLANTERN_WRITE_LENGTH], out) != written[SHIMLANTERN_WRITE_LENGTH] || fclose(out)) {
            perror(argv[2]);
            return 2;
        }
    }
    return 0;
}
