/* Shimlantern for callers in C: the archive crates/capi/out/libcapi.a, which `rt lib` writes in crates/capi (x86-64 Linux).

   Every function takes any input; what it cannot take it refuses by a number. What the caller owes is the memory: a pointer with a length
   points to so many cells, an array to as many as its declaration says. No pointer is null, not even of length 0. Memory that a function
   writes overlaps nothing else that is lent to the same call. Nothing is kept after the call. There is no state: calls on other memory may run
   at the same time. Of the stack filter uses some 8 kB, 24 kB where `hours` times `rooms` is above 1,008, and 147 kB where it is above 8,784;
   list_text 96 kB more than that; read_plan some 49 kB, the others 3 kB at most. From outside the archive needs memcpy and memset, and nothing else.

   A plan in memory: `hours`; the capacities, one for each of its `rooms`; the calendars, packed and joined (below); for each task its calendar (from
   0) and its work time; the heights room by room, first every task's in room 0; the pairs, two tasks (from 0) each, of which the earlier ends by the
   start of the later; for each task a box of six numbers: start, elapsed time and overtime, the lower bound first. A schedule has three numbers a
   task: start, elapsed time, overtime. A log has for each step its kind ('C', 'O', 'L', 'U', 'F' or 'B'), its task and its hour, each in a slice of
   its own, 0 in a field that the kind does not use; a step of kind 'O' has its room (from 0) in place of a task, one of kind 'F' or 'B' its pair
   (from 0) and no hour.

   A packed calendar has four hours a byte: hour t stands in bits 2 (t mod 4) and 2 (t mod 4) + 1 of byte t div 4, 0 closed, 1 regular, 2 overtime.
   It begins with a new byte and has SHIMLANTERN_CALENDAR_BYTES(hours) of them; the bits past its last hour are 0. So six hours of which only the
   second is closed, `rcrrrr` in plan text, are the bytes 81 and 5: 1 + 0 * 4 + 1 * 16 + 1 * 64, and 1 + 1 * 4.

   An answer is an array of numbers. The first two are a refusal's number and its place, 0 and 0 where nothing is refused. The others are the
   values, each 0 where the answer has none. Below, each place of an answer has a name, and so has its length.

   A refusal by another number than 11, 12, 13 and 32 leaves all lent memory but the answer as it was; but read_plan refusing a text by any number
   but 31 leaves the memory lent for the plan all 0. */

#ifndef SHIMLANTERN_H
#define SHIMLANTERN_H

#include <stddef.h>
#include <stdint.h>

#ifdef __cplusplus
extern "C" {
#endif

/* The limits of a plan; the most bytes of a line of plan text, with its LF, and the most lines of a text, whose length has no other limit; and the
   bytes that hold every text that is written. */
#define SHIMLANTERN_MOST_HOURS 8784
#define SHIMLANTERN_MOST_CALENDARS 16
#define SHIMLANTERN_MOST_TASKS 64
#define SHIMLANTERN_MOST_ROOMS 8
#define SHIMLANTERN_MOST_PAIRS 256
#define SHIMLANTERN_MOST_HEIGHT 1000
#define SHIMLANTERN_MOST_CAPACITY 60000
#define SHIMLANTERN_MOST_LINE 8800
#define SHIMLANTERN_MOST_LINES 65535
#define SHIMLANTERN_MOST_WRITTEN 149066

/* How many bytes a packed calendar of so many hours has. */
#define SHIMLANTERN_CALENDAR_BYTES(hours) (((hours) + 3) / 4)

/* The memory that reading a plan needs: SHIMLANTERN_MOST_ROOMS capacities, so many bytes of packed calendars, SHIMLANTERN_MOST_TASKS calendars of
   tasks and as many work times, so many heights, so many numbers of pairs, so many bounds. And the bytes that hold every listing. */
#define SHIMLANTERN_MOST_PACKED (SHIMLANTERN_MOST_CALENDARS * SHIMLANTERN_CALENDAR_BYTES(SHIMLANTERN_MOST_HOURS))
#define SHIMLANTERN_MOST_HEIGHTS (SHIMLANTERN_MOST_ROOMS * SHIMLANTERN_MOST_TASKS)
#define SHIMLANTERN_MOST_PAIR_NUMBERS (SHIMLANTERN_PAIR_NUMBERS * SHIMLANTERN_MOST_PAIRS)
#define SHIMLANTERN_MOST_BOUNDS (SHIMLANTERN_BOX_NUMBERS * SHIMLANTERN_MOST_TASKS)
#define SHIMLANTERN_MOST_LISTING 4096

/* Refusals, each with its place: 0 where none is named here. */
enum {
    SHIMLANTERN_NOT_REFUSED = 0,
    SHIMLANTERN_REFUSED_MALFORMED = 1,         /* the plan text is malformed; the line, from 1 */
    SHIMLANTERN_REFUSED_HOURS = 2,             /* not 1 to 8,784 hours */
    SHIMLANTERN_REFUSED_CALENDARS = 3,         /* not 1 to 16 calendars, or one not of `hours` hours */
    SHIMLANTERN_REFUSED_SYMBOL = 4,            /* of plan text: a letter other than r, c, o; its index, calendars joined */
    SHIMLANTERN_REFUSED_TASKS = 5,             /* more than 64 tasks */
    SHIMLANTERN_REFUSED_NO_CALENDAR = 6,       /* no such calendar; the task */
    SHIMLANTERN_REFUSED_WORK_TIME = 7,         /* work time not 1 to `hours`; the task */
    SHIMLANTERN_REFUSED_TASK_HEIGHT = 8,       /* a height above 1,000; the task */
    SHIMLANTERN_REFUSED_TASK_BOUNDS = 9,       /* a bound out of range, or lower above upper; the task */
    SHIMLANTERN_REFUSED_CAPACITY = 10,         /* a capacity above 60,000 */
    SHIMLANTERN_REFUSED_UNKNOWN_STEP = 11,     /* a step of unknown kind, of a missing task, room, pair or hour, or an unused field not 0; the step */
    SHIMLANTERN_REFUSED_NOT_ADMITTED = 12,     /* a step that is not admitted; the step */
    SHIMLANTERN_REFUSED_AFTER_IMPOSSIBLE = 13, /* a step after one that said impossible; the step */
    SHIMLANTERN_REFUSED_OUTSIDE_BOUNDS = 14,   /* a triple outside its box; the task */
    SHIMLANTERN_REFUSED_NOT_VALID = 15,        /* a triple that is not valid; the task */
    SHIMLANTERN_REFUSED_OVER_CAPACITY = 16,    /* the running tasks exceed a room's capacity; the first such hour */
    SHIMLANTERN_REFUSED_ROOMS = 17,            /* not 1 to 8 rooms */
    SHIMLANTERN_REFUSED_PAIR_TASKS = 18,       /* a pair of a missing task, or of one task twice; the pair */
    SHIMLANTERN_REFUSED_PAIRS = 19,            /* more than 256 pairs */
    SHIMLANTERN_REFUSED_PAIR_BROKEN = 20,      /* a later task starts before the earlier one's end; the pair */
    SHIMLANTERN_REFUSED_PACKING = 21,          /* a packed calendar with a 3 in an hour, or with bits set past its last hour; the calendar */
    SHIMLANTERN_REFUSED_MEMORY_SIZE = 31,      /* lent memory is of the wrong size */
    SHIMLANTERN_REFUSED_NO_ROOM = 32,          /* the log has no room for the next step */
    SHIMLANTERN_REFUSED_OUTPUT_SIZE = 33       /* the memory to write to is shorter than the text */
};

/* The places of a box, of a triple and of a pair. */
enum {
    SHIMLANTERN_BOX_EARLIEST = 0,
    SHIMLANTERN_BOX_LATEST = 1,
    SHIMLANTERN_BOX_SHORTEST = 2,
    SHIMLANTERN_BOX_LONGEST = 3,
    SHIMLANTERN_BOX_FEWEST = 4,
    SHIMLANTERN_BOX_MOST = 5,
    SHIMLANTERN_BOX_NUMBERS = 6
};
enum { SHIMLANTERN_TRIPLE_START = 0, SHIMLANTERN_TRIPLE_ELAPSED = 1, SHIMLANTERN_TRIPLE_OVERTIME = 2, SHIMLANTERN_TRIPLE_NUMBERS = 3 };
enum { SHIMLANTERN_PAIR_EARLIER = 0, SHIMLANTERN_PAIR_LATER = 1, SHIMLANTERN_PAIR_NUMBERS = 2 };

/* The first two places of every answer. */
enum { SHIMLANTERN_NUMBER = 0, SHIMLANTERN_PLACE = 1 };

/* The least and greatest start, elapsed time and overtime that fit one packed calendar of `hours` hours, within a box of six numbers. Another number
   of bytes than SHIMLANTERN_CALENDAR_BYTES(hours) is 3.
   answer: number (0, 2, 3, 7, 9 or 21), place, 1 if some triple fits, then start, elapsed time and overtime, the lower bound first, the least and
   the greatest end, then for each of the six bounds, in their order, start, elapsed time and overtime of a triple that attains it, of several the
   one with the earliest start, then with the shortest elapsed time; 0 where there is none. */
enum {
    SHIMLANTERN_RULE_FITS = 2,
    SHIMLANTERN_RULE_EARLIEST = 3,
    SHIMLANTERN_RULE_LATEST = 4,
    SHIMLANTERN_RULE_SHORTEST = 5,
    SHIMLANTERN_RULE_LONGEST = 6,
    SHIMLANTERN_RULE_FEWEST = 7,
    SHIMLANTERN_RULE_MOST = 8,
    SHIMLANTERN_RULE_LEAST_END = 9,
    SHIMLANTERN_RULE_GREATEST_END = 10,
    SHIMLANTERN_RULE_EARLIEST_START = 11,
    SHIMLANTERN_RULE_EARLIEST_ELAPSED = 12,
    SHIMLANTERN_RULE_EARLIEST_OVERTIME = 13,
    SHIMLANTERN_RULE_LATEST_START = 14,
    SHIMLANTERN_RULE_LATEST_ELAPSED = 15,
    SHIMLANTERN_RULE_LATEST_OVERTIME = 16,
    SHIMLANTERN_RULE_SHORTEST_START = 17,
    SHIMLANTERN_RULE_SHORTEST_ELAPSED = 18,
    SHIMLANTERN_RULE_SHORTEST_OVERTIME = 19,
    SHIMLANTERN_RULE_LONGEST_START = 20,
    SHIMLANTERN_RULE_LONGEST_ELAPSED = 21,
    SHIMLANTERN_RULE_LONGEST_OVERTIME = 22,
    SHIMLANTERN_RULE_FEWEST_START = 23,
    SHIMLANTERN_RULE_FEWEST_ELAPSED = 24,
    SHIMLANTERN_RULE_FEWEST_OVERTIME = 25,
    SHIMLANTERN_RULE_MOST_START = 26,
    SHIMLANTERN_RULE_MOST_ELAPSED = 27,
    SHIMLANTERN_RULE_MOST_OVERTIME = 28,
    SHIMLANTERN_RULE_NUMBERS = 29
};
void shimlantern_calendar_rule(uint16_t hours, const uint8_t *calendar, size_t calendar_length, uint16_t work_time, const uint16_t box[6],
                               uint64_t answer[29]);

/* Whether a schedule is feasible.
   answer: number (0, 2, 3, 5 to 10, 14 to 21 or 31), place, makespan. */
enum { SHIMLANTERN_SCHEDULE_MAKESPAN = 2, SHIMLANTERN_SCHEDULE_NUMBERS = 3 };
void shimlantern_check_schedule(uint16_t hours, const uint16_t *capacities, size_t rooms, const uint8_t *calendars, size_t calendars_length,
                                const uint16_t *task_calendars, size_t task_calendars_length, const uint16_t *work_times, size_t work_times_length,
                                const uint16_t *heights, size_t heights_length, const uint16_t *pairs, size_t pairs_length, const uint16_t *boxes,
                                size_t boxes_length, const uint16_t *schedule, size_t schedule_length, uint64_t answer[3]);

/* Replays a log from anyone. Accepted, or refused by 11, 12 or 13, the boxes become those at the log's end.
   answer: number (0, 2, 3, 5 to 13, 17 to 19, 21 or 31), place, number of steps, 1 if the last said impossible. */
enum { SHIMLANTERN_LOG_STEPS = 2, SHIMLANTERN_LOG_IMPOSSIBLE = 3, SHIMLANTERN_LOG_NUMBERS = 4 };
void shimlantern_check_log(uint16_t hours, const uint16_t *capacities, size_t rooms, const uint8_t *calendars, size_t calendars_length,
                           const uint16_t *task_calendars, size_t task_calendars_length, const uint16_t *work_times, size_t work_times_length,
                           const uint16_t *heights, size_t heights_length, const uint16_t *pairs, size_t pairs_length, uint16_t *boxes,
                           size_t boxes_length, const uint8_t *log_kinds, size_t log_kinds_length, const uint16_t *log_tasks, size_t log_tasks_length,
                           const uint16_t *log_hours, size_t log_hours_length, uint64_t answer[4]);

/* Tightens the boxes step by step, and writes each step to the log, whose length is the room. Cells past the count are untouched. After 32, a
   call on the boxes that were left goes on.
   answer: number (0, 2, 3, 5 to 10, 17 to 19, 21, 31 or 32), place, count of steps, 1 if the run ended impossible (else, with number 0, settled). */
enum { SHIMLANTERN_FILTER_COUNT = 2, SHIMLANTERN_FILTER_IMPOSSIBLE = 3, SHIMLANTERN_FILTER_NUMBERS = 4 };
void shimlantern_filter(uint16_t hours, const uint16_t *capacities, size_t rooms, const uint8_t *calendars, size_t calendars_length,
                        const uint16_t *task_calendars, size_t task_calendars_length, const uint16_t *work_times, size_t work_times_length,
                        const uint16_t *heights, size_t heights_length, const uint16_t *pairs, size_t pairs_length, uint16_t *boxes,
                        size_t boxes_length, uint8_t *log_kinds, size_t log_kinds_length, uint16_t *log_tasks, size_t log_tasks_length,
                        uint16_t *log_hours, size_t log_hours_length, uint64_t answer[4]);

/* Reads a plan text, of any length, into memory for the most that a plan can hold: SHIMLANTERN_MOST_ROOMS capacities, SHIMLANTERN_MOST_PACKED bytes
   of packed calendars, SHIMLANTERN_MOST_TASKS calendars of tasks and as many work times, SHIMLANTERN_MOST_HEIGHTS heights,
   SHIMLANTERN_MOST_PAIR_NUMBERS numbers of pairs and SHIMLANTERN_MOST_BOUNDS bounds. Less than that is 31, after 1, and leaves all as it was. After
   any other refusal, 1 included, every cell of the seven slices lent for the plan is 0, however long they are. Cells past the plan's own are
   untouched where nothing is refused. A task line without bounds has start 0 to hours - 1, elapsed time from the work time to hours, and no
   overtime.
   answer: number (0, 1 to 10, 17 to 19 or 31), place, hours, how many rooms, how many calendars, how many tasks, how many pairs. */
enum {
    SHIMLANTERN_READ_HOURS = 2,
    SHIMLANTERN_READ_ROOMS = 3,
    SHIMLANTERN_READ_CALENDARS = 4,
    SHIMLANTERN_READ_TASKS = 5,
    SHIMLANTERN_READ_PAIRS = 6,
    SHIMLANTERN_READ_NUMBERS = 7
};
void shimlantern_read_plan(const uint8_t *text, size_t text_length, uint16_t *capacities, size_t capacities_length, uint8_t *calendars,
                           size_t calendars_length, uint16_t *task_calendars, size_t task_calendars_length, uint16_t *work_times,
                           size_t work_times_length, uint16_t *heights, size_t heights_length, uint16_t *pairs, size_t pairs_length, uint16_t *boxes,
                           size_t boxes_length, uint64_t answer[7]);

/* Writes a plan as plan text, every task line with all its bounds; read again, it gives the same plan. `out` may have any length; less than the
   text needs is 33. SHIMLANTERN_MOST_WRITTEN bytes hold every text. Bytes past the length are untouched.
   answer: number (0, 2, 3, 5 to 10, 17 to 19, 21, 31 or 33), place, length of the text. */
enum { SHIMLANTERN_WRITE_LENGTH = 2, SHIMLANTERN_WRITE_NUMBERS = 3 };
void shimlantern_write_plan(uint16_t hours, const uint16_t *capacities, size_t rooms, const uint8_t *calendars, size_t calendars_length,
                            const uint16_t *task_calendars, size_t task_calendars_length, const uint16_t *work_times, size_t work_times_length,
                            const uint16_t *heights, size_t heights_length, const uint16_t *pairs, size_t pairs_length, const uint16_t *boxes,
                            size_t boxes_length, uint8_t *out, size_t out_length, uint64_t answer[3]);

/* Writes what the program prints for a plan text, and returns its length. Bytes past it are untouched. */
size_t shimlantern_list_text(const uint8_t *text, size_t text_length, uint8_t out[SHIMLANTERN_MOST_LISTING]);

#ifdef __cplusplus
}
#endif

#endif
