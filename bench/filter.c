/* Times the library against a plain implementation of the same definitions in C: same plans, same memory, one run. Both must leave the same
   answer, boxes and log before a time is printed. The plain one keeps each task's answer of the calendar rule, works the moved task's out anew and
   makes the load of each hour in each room once a turn; its calendar rule tries each start and each elapsed time with running counts. It has its
   calendars as letters, the library packed, which they are before the clock runs. At last long plan texts are read by the library and by a plain
   reader. */

#include "../crates/capi/shimlantern.h"

#include <stdio.h>
#include <stdlib.h>
#include <string.h>
#include <time.h>

enum { HOURS = 1008, YEAR = 8784, TASKS = 64, ROOM = 2048, MOST_ROOM = 16384, CALENDARS = 16, ROOMS = 8, PAIRS = 256 };

/* Of TASKS tasks, so that room r's heights begin at cell r * TASKS. The log that a run of it is lent has `log_room` steps. */
struct plan {
    uint16_t hours;
    size_t rooms, calendars, tasks, pairs, log_room;
    uint8_t symbols[CALENDARS * YEAR], packed[SHIMLANTERN_MOST_PACKED];
    uint16_t capacities[ROOMS], task_calendars[TASKS], work_times[TASKS], heights[ROOMS * TASKS], pair_tasks[2 * PAIRS];
};

struct memory {
    uint16_t boxes[6 * TASKS];
    uint8_t kinds[MOST_ROOM];
    uint16_t tasks[MOST_ROOM], hours[MOST_ROOM];
    uint64_t answer[4];
};

/* A calendar of letters packed, from a new byte on. */
static void pack(const uint8_t *symbols, size_t hours, uint8_t *packed) {
    memset(packed, 0, SHIMLANTERN_CALENDAR_BYTES(hours));
    for (size_t t = 0; t < hours; t++) packed[t / 4] |= (symbols[t] == 'r' ? 1 : symbols[t] == 'o' ? 2 : 0) << 2 * (t % 4);
}

static void pack_all(struct plan *p) {
    for (size_t k = 0; k < p->calendars; k++) pack(p->symbols + k * p->hours, p->hours, p->packed + k * SHIMLANTERN_CALENDAR_BYTES(p->hours));
}

/* The plain implementation. */

struct fit {
    int any;
    uint16_t box[6], ect, lct, witnesses[6][3];
};

static void widen(uint16_t *least, uint16_t *greatest, unsigned n) {
    if (n < *least) *least = n;
    if (n > *greatest) *greatest = n;
}

/* With a triple more, of which n is the number that bound k is of: k is a lower bound, and k + 1 the upper one. */
static void take(struct fit *f, int k, unsigned n, const uint16_t *triple) {
    if (!f->any || n < f->box[k]) memcpy(f->witnesses[k], triple, sizeof f->witnesses[k]);
    if (!f->any || n > f->box[k + 1]) memcpy(f->witnesses[k + 1], triple, sizeof f->witnesses[k + 1]);
    widen(&f->box[k], &f->box[k + 1], n);
}

static struct fit plain_rule(const uint8_t *calendar, unsigned hours, unsigned p, const uint16_t *box) {
    struct fit f = {0, {UINT16_MAX, 0, UINT16_MAX, 0, UINT16_MAX, 0}, UINT16_MAX, 0, {{0}}};
    for (unsigned s = box[0]; s <= box[1]; s++) {
        unsigned regular = 0, overtime = 0;
        if (calendar[s] == 'c') continue;
        for (unsigned e = 1; e <= box[3] && s + e <= hours; e++) {
            uint8_t last = calendar[s + e - 1];
            regular += last == 'r';
            overtime += last == 'o';
            if (regular > p) break;
            unsigned o = p - regular;
            unsigned ends = (calendar[s] == 'o') + (e > 1 && last == 'o');
            if (e < box[2] || o < box[4] || o > box[5]) continue;
            if (last == 'c' || o > overtime || ends > o) continue;
            const uint16_t triple[3] = {s, e, o};
            take(&f, 0, s, triple);
            take(&f, 2, e, triple);
            take(&f, 4, o, triple);
            widen(&f.ect, &f.lct, s + e);
            f.any = 1;
        }
    }
    return f;
}

static struct fit fit_of(const struct plan *p, const uint16_t *boxes, size_t i) {
    return plain_rule(p->symbols + p->task_calendars[i] * p->hours, p->hours, p->work_times[i], boxes + 6 * i);
}

static int must_run(const struct fit *f, unsigned t) {
    return f->any && f->box[1] <= t && t < f->ect;
}

/* The task's field has the room of O, the pair of F and B. */
struct found {
    uint8_t kind;
    uint16_t task, hour;
};

/* The first admitted step, in the filter's order (02, W-207: O before C); kind 0 if there is none. */
static struct found next_step(const struct plan *p, const uint16_t *boxes, const struct fit *fits) {
    static unsigned load[ROOMS][YEAR];
    for (size_t r = 0; r < p->rooms; r++) {
        memset(load[r], 0, p->hours * sizeof **load);
        for (size_t i = 0; i < p->tasks; i++) {
            if (!fits[i].any) continue;
            for (unsigned t = fits[i].box[1]; t < fits[i].ect; t++) load[r][t] += p->heights[r * TASKS + i];
        }
    }
    for (size_t r = 0; r < p->rooms; r++)
        for (unsigned t = 0; t < p->hours; t++)
            if (load[r][t] > p->capacities[r]) return (struct found){'O', r, t};
    for (size_t i = 0; i < p->tasks; i++)
        if (!fits[i].any || memcmp(fits[i].box, boxes + 6 * i, sizeof fits[i].box)) return (struct found){'C', i, 0};
    for (int upper = 0; upper < 2; upper++)
        for (size_t i = 0; i < p->tasks; i++)
            for (unsigned t = 0; t < p->hours; t++) {
                const uint16_t *b = boxes + 6 * i;
                if (upper ? !(fits[i].box[1] <= t && t < b[1] + b[2]) : !(t < fits[i].ect && b[0] <= t)) continue;
                int own = must_run(&fits[i], t);
                for (size_t r = 0; r < p->rooms; r++) {
                    unsigned height = p->heights[r * TASKS + i], others = load[r][t] - (own ? height : 0);
                    if (height + others > p->capacities[r]) return (struct found){upper ? 'U' : 'L', i, t};
                }
            }
    for (int back = 0; back < 2; back++)
        for (size_t k = 0; k < p->pairs; k++) {
            size_t a = p->pair_tasks[2 * k], b = p->pair_tasks[2 * k + 1];
            if (back ? fits[b].box[1] < boxes[6 * a + 1] + boxes[6 * a + 2] : boxes[6 * b] < fits[a].ect)
                return (struct found){back ? 'B' : 'F', k, 0};
        }
    return (struct found){0, 0, 0};
}

static void plain_filter(const struct plan *p, struct memory *m) {
    struct fit fits[TASKS];
    for (size_t i = 0; i < p->tasks; i++) fits[i] = fit_of(p, m->boxes, i);
    uint64_t count = 0, number = 0, impossible = 0;
    for (;;) {
        struct found x = next_step(p, m->boxes, fits);
        if (!x.kind) break;
        if (count == p->log_room) {
            number = 32;
            break;
        }
        m->kinds[count] = x.kind;
        m->tasks[count] = x.task;
        m->hours[count] = x.hour;
        count++;
        const uint16_t *pair = p->pair_tasks + 2 * x.task;
        size_t i = x.kind == 'F' ? pair[1] : x.kind == 'B' ? pair[0] : x.task;
        uint16_t *b = m->boxes + 6 * i;
        /* What L and F raise lower S to, and the hour from which U and B take lower E for upper S. */
        unsigned lower = x.kind == 'F' ? fits[pair[0]].ect : x.hour + 1u;
        unsigned end = x.kind == 'B' ? fits[pair[1]].box[1] : x.hour;
        int raises = x.kind == 'L' || x.kind == 'F', lowers = x.kind == 'U' || x.kind == 'B';
        impossible = x.kind == 'O' || (x.kind == 'C' && !fits[i].any) || (raises && lower > b[1]) || (lowers && end < b[0] + b[2]);
        if (impossible) break;
        if (x.kind == 'C') memcpy(b, fits[i].box, sizeof fits[i].box);
        if (raises) b[0] = lower;
        if (lowers) b[1] = end - b[2];
        fits[i] = fit_of(p, m->boxes, i);
    }
    memcpy(m->answer, (uint64_t[]){number, 0, count, impossible}, sizeof m->answer);
}

/* The library. */

static void library_filter(const struct plan *p, struct memory *m) {
    shimlantern_filter(p->hours, p->capacities, p->rooms, p->packed, p->calendars * SHIMLANTERN_CALENDAR_BYTES(p->hours), p->task_calendars,
                       p->tasks, p->work_times, p->tasks, p->heights, p->rooms * p->tasks, p->pair_tasks, 2 * p->pairs, m->boxes, 6 * p->tasks,
                       m->kinds, p->log_room, m->tasks, p->log_room, m->hours, p->log_room, m->answer);
}

/* The plans. */

/* A task, with its height in the first room. */
static void add_task(struct plan *p, uint16_t *boxes, uint16_t calendar, uint16_t work_time, uint16_t height, const uint16_t box[6]) {
    size_t i = p->tasks++;
    p->task_calendars[i] = calendar;
    p->work_times[i] = work_time;
    p->heights[i] = height;
    memcpy(boxes + 6 * i, box, 6 * sizeof *box);
}

/* Days of the hours of one pattern, which begin at another hour in each of the plan's calendars. */
static void fill_days(struct plan *p, const char *day) {
    for (size_t k = 0; k < p->calendars * p->hours; k++) p->symbols[k] = day[(k % p->hours + 5 * (k / p->hours)) % 24];
}

/* Four calendars of days with two closed and two overtime hours. Four tasks fill the capacity at the start of the plan and four near its end;
   the others start between. */
static void mostly_regular(struct plan *p, uint16_t *boxes) {
    *p = (struct plan){.hours = HOURS, .rooms = 1, .capacities = {4}, .calendars = 4, .log_room = ROOM};
    fill_days(p, "rrrrrrrrrrrrrrrrrrrroocc");
    for (uint16_t i = 0; i < TASKS; i++) {
        uint16_t first = i >= 4 && i < 8 ? 890 : 0, last = i < 8 ? first : 920;
        uint16_t work = i < 8 ? 31 + i : 4 + 7 * i % 40;
        add_task(p, boxes, i % 4, work, i < 8 ? 1 : 1 + i % 3, (uint16_t[]){first, last, 1, HOURS, 0, work});
    }
}

/* The same weeks in eight rooms, with other heights in each. */
static void eight_rooms(struct plan *p, uint16_t *boxes) {
    mostly_regular(p, boxes);
    p->rooms = ROOMS;
    for (size_t r = 1; r < ROOMS; r++) {
        p->capacities[r] = p->capacities[0];
        for (size_t i = 0; i < TASKS; i++) p->heights[r * TASKS + i] = i < 8 ? 1 : 1 + (i + r) % 3;
    }
}

/* As many pairs as there can be, of the tasks from `first` on. Each of them but the last five ends before the four after it, and some before the
   fifth. The pairs of the first `turn` go from the last of them to the first, which is the long way for F, those of the others from the first to
   the last, which is that for B. */
static void add_pairs(struct plan *p, size_t first, size_t turn) {
    size_t earlier_tasks = TASKS - 5 - first;
    while (p->pairs < PAIRS) {
        size_t k = p->pairs++, n = k % earlier_tasks, earlier = first + (n < turn ? turn - 1 - n : n);
        p->pair_tasks[2 * k] = earlier;
        p->pair_tasks[2 * k + 1] = earlier + 1 + k / earlier_tasks;
    }
}

/* The same weeks with racks for all, and tasks of a few hours that may start at any, in 256 pairs. */
static void with_pairs(struct plan *p, uint16_t *boxes) {
    mostly_regular(p, boxes);
    p->capacities[0] = 3 * TASKS;
    for (uint16_t i = 0; i < TASKS; i++) {
        p->work_times[i] = 1 + 5 * i % 9;
        memcpy(boxes + 6 * i, (uint16_t[]){0, HOURS - 1, 1, HOURS, 0, p->work_times[i]}, 6 * sizeof *boxes);
    }
    add_pairs(p, 0, 40);
}

/* Regular and overtime hours by turns; task 0 fills the capacity of 1 for its first 200 hours, the others may start at any hour. */
static void by_turns(struct plan *p, uint16_t *boxes) {
    enum { WORK = 200 };
    *p = (struct plan){.hours = HOURS, .rooms = 1, .capacities = {1}, .calendars = 1, .log_room = ROOM};
    for (size_t k = 0; k < HOURS; k++) p->symbols[k] = "ro"[k % 2];
    add_task(p, boxes, 0, WORK, 1, (uint16_t[]){0, 0, WORK, WORK, 0, WORK});
    while (p->tasks < TASKS) add_task(p, boxes, 0, WORK, 1, (uint16_t[]){0, HOURS - 1, 1, HOURS, 0, WORK});
}

/* Regular and closed hours by turns, eight rooms; task 0 fills each for its first 250 hours of work, the others may start at any hour. An L moves
   one of these into a closed hour, and C out of it: every other step is a C. */
static void closed_by_turns(struct plan *p, uint16_t *boxes) {
    enum { WORK = 250, TIME = 2 * WORK - 1 };
    *p = (struct plan){.hours = HOURS, .rooms = ROOMS, .calendars = 1, .log_room = ROOM};
    for (size_t k = 0; k < HOURS; k++) p->symbols[k] = "rc"[k % 2];
    for (size_t r = 0; r < ROOMS; r++) p->capacities[r] = 1;
    add_task(p, boxes, 0, WORK, 1, (uint16_t[]){0, 0, TIME, TIME, 0, 0});
    while (p->tasks < TASKS) add_task(p, boxes, 0, 4, 1, (uint16_t[]){0, HOURS - 1, 1, HOURS, 0, 0});
    for (size_t k = TASKS; k < ROOMS * TASKS; k++) p->heights[k] = 1;
}

/* Regular hours. Tasks side by side fill the capacity in all but one of them, from hour 0 or 1 on; the last task, of one hour, may start at any,
   and is moved hour by hour to the one that is left. */
static void pushed_from(uint16_t filled, struct plan *p, uint16_t *boxes) {
    enum { WORK = HOURS / (TASKS - 1) };
    *p = (struct plan){.hours = HOURS, .rooms = 1, .capacities = {1}, .calendars = 1, .log_room = ROOM};
    memset(p->symbols, 'r', HOURS);
    for (uint16_t i = 0; i < TASKS - 1; i++) {
        uint16_t start = filled + WORK * i, work = i < TASKS - 2 ? WORK : WORK - 1;
        add_task(p, boxes, 0, work, 1, (uint16_t[]){start, start, work, work, 0, 0});
    }
    add_task(p, boxes, 0, 1, 1, (uint16_t[]){0, HOURS - 1, 1, 1, 0, 0});
}

/* The last hour is left: every step is an L. */
static void pushed_later(struct plan *p, uint16_t *boxes) {
    pushed_from(0, p, boxes);
}

/* The first hour is left: every step is a U. */
static void pushed_earlier(struct plan *p, uint16_t *boxes) {
    pushed_from(1, p, boxes);
}

/* The greatest sizes but for H, and a run of more steps than a year has hours, of every kind but O, which would end it. Six tasks fill all rooms for a
   stretch each, the longest at the start and near the end. The others, of a few hours, may start at any and stand in two rooms each. L and U move
   them out of those stretches and C out of closed hours; F and B, since 256 pairs make them follow each other, move them into the next stretch. */
static void greatest_sizes(struct plan *p, uint16_t *boxes) {
    static const uint16_t starts[] = {0, 250, 350, 450, 550, 700}, works[] = {105, 27, 27, 27, 27, 240};
    enum { FIXED = sizeof starts / sizeof *starts };
    *p = (struct plan){.hours = HOURS, .rooms = ROOMS, .calendars = CALENDARS, .log_room = MOST_ROOM};
    fill_days(p, "rrrcrrrcrrrcrrrcrrroocoo");
    for (size_t r = 0; r < ROOMS; r++) p->capacities[r] = 4;
    for (uint16_t i = 0; i < TASKS; i++) {
        int fixed = i < FIXED;
        uint16_t first = fixed ? starts[i] : 0, last = fixed ? first + 2 : HOURS - 1, work = fixed ? works[i] : 1 + 5 * i % 9;
        add_task(p, boxes, i % CALENDARS, work, 0, (uint16_t[]){first, last, 1, HOURS, 0, work});
        for (size_t r = 0; r < ROOMS; r++) p->heights[r * TASKS + i] = fixed ? 4 : (i + r) % ROOMS < 2 ? 1 + i % 3 : 0;
    }
    add_pairs(p, FIXED, 36);
}

/* Some thousand steps in eight rooms, for any number of hours: of the plan above the tasks that fill the capacity for a stretch, the other four
   near the end of the plan, and those that start between; they settle. The stretches are as long in a year as in a ninth of it, and so is the run. */
static void seasons_of(uint16_t hours, struct plan *p, uint16_t *boxes) {
    *p = (struct plan){.hours = hours, .rooms = ROOMS, .calendars = 4, .log_room = MOST_ROOM};
    fill_days(p, "rrrrrrrrrrrrrrrrrrrroocc");
    for (size_t r = 0; r < ROOMS; r++) p->capacities[r] = r ? 4 * TASKS : 4;
    for (uint16_t i = 0; i < TASKS; i++) {
        uint16_t near_end = (hours / 24 - 5) * 24 + 2, first = i >= 4 && i < 8 ? near_end : 0, last = i < 8 ? first : near_end + 30;
        uint16_t work = i < 8 ? 31 + i : 4 + 7 * i % 40;
        add_task(p, boxes, i % 4, work, i < 8 ? 1 : 1 + i % 3, (uint16_t[]){first, last, 1, hours, 0, work});
        for (size_t r = 1; r < ROOMS; r++) p->heights[r * TASKS + i] = 1 + (i + r) % 3;
    }
}

static void a_year(struct plan *p, uint16_t *boxes) {
    seasons_of(YEAR, p, boxes);
}

static void a_ninth(struct plan *p, uint16_t *boxes) {
    seasons_of(YEAR / 9, p, boxes);
}

/* Times. */

static double seconds(void) {
    struct timespec t;
    clock_gettime(CLOCK_MONOTONIC, &t);
    return t.tv_sec + 1e-9 * t.tv_nsec;
}

static double lesser(double a, double b) {
    return a < b ? a : b;
}

static void print_times(const char *name, double library, double plain) {
    printf("%-54s library %9.4f ms   plain C %9.4f ms   ratio %7.4f\n", name, 1e3 * library, 1e3 * plain, library / plain);
}

/* The two take turns, and the least time of each counts. Answers the library's. */
static double time_filter(const char *name, void (*make)(struct plan *, uint16_t *), int times) {
    static struct plan p;
    static struct memory opening, by_library, by_plain;
    double library = 1e9, plain = 1e9;
    memset(&opening, 0, sizeof opening);
    make(&p, opening.boxes);
    pack_all(&p);
    for (int k = 0; k < times; k++) {
        by_library = by_plain = opening;
        double start = seconds();
        library_filter(&p, &by_library);
        double between = seconds();
        plain_filter(&p, &by_plain);
        library = lesser(library, between - start);
        plain = lesser(plain, seconds() - between);
        if (memcmp(&by_library, &by_plain, sizeof by_plain)) {
            fprintf(stderr, "%s: the two differ\n", name);
            exit(1);
        }
    }
    char told[80];
    snprintf(told, sizeof told, "%s, %llu steps", name, (unsigned long long)by_library.answer[2]);
    print_times(told, library, plain);
    return library;
}

/* The rule on a calendar of the hours of one pattern, over and over, and the full box. */
static void time_rule(const char *name, const char *pattern, uint16_t hours, uint16_t work, int times) {
    static uint8_t calendar[YEAR], packed[SHIMLANTERN_CALENDAR_BYTES(YEAR)];
    const uint16_t box[6] = {0, hours - 1, 1, hours, 0, work};
    double library = 1e9, plain = 1e9;
    for (size_t t = 0; t < hours; t++) calendar[t] = pattern[t % strlen(pattern)];
    pack(calendar, hours, packed);
    for (int k = 0; k < times; k++) {
        uint64_t answer[SHIMLANTERN_RULE_NUMBERS];
        double start = seconds();
        shimlantern_calendar_rule(hours, packed, SHIMLANTERN_CALENDAR_BYTES(hours), work, box, answer);
        double between = seconds();
        struct fit f = plain_rule(calendar, hours, work, box);
        library = lesser(library, between - start);
        plain = lesser(plain, seconds() - between);
        uint64_t expected[SHIMLANTERN_RULE_NUMBERS] = {0, 0, f.any, f.box[0], f.box[1], f.box[2], f.box[3], f.box[4], f.box[5], f.ect, f.lct};
        for (int n = 0; n < 18; n++) expected[SHIMLANTERN_RULE_EARLIEST_START + n] = f.witnesses[n / 3][n % 3];
        if (memcmp(answer, expected, sizeof answer)) {
            fprintf(stderr, "%s: the two differ\n", name);
            exit(1);
        }
    }
    print_times(name, library, plain);
}

/* Plan text. */

/* The cells that reading a plan needs. */
struct cells {
    uint16_t capacities[ROOMS], task_calendars[TASKS], work_times[TASKS], heights[ROOMS * TASKS], pairs[2 * PAIRS], boxes[6 * TASKS];
    uint8_t calendars[SHIMLANTERN_MOST_PACKED];
};

/* The numbers of a line, each after a tab: the first `most` of them, and how many there are; -1 where one is malformed. */
static long plain_numbers(const uint8_t *at, const uint8_t *end, uint16_t *numbers, long most) {
    long count = 0;
    while (at < end) {
        if (*at++ != '\t') return -1;
        const uint8_t *first = at;
        unsigned n = 0;
        while (at < end && *at >= '0' && *at <= '9' && n <= UINT16_MAX) n = 10 * n + (*at++ - '0');
        if (at == first || n > UINT16_MAX || (*first == '0' && at > first + 1)) return -1;
        if (count < most) numbers[count] = n;
        count++;
    }
    return count;
}

/* A plain reader of texts of one room whose lines are in order: the first malformed line, or the first of 2, 3, 4, 5, 19. It keeps the first
   calendars, tasks and pairs, as many as there may be. */
static void plain_read(const uint8_t *text, size_t length, struct cells *c, uint64_t answer[2]) {
    const uint8_t *at = text, *end = text + length;
    size_t calendars = 0, tasks = 0, pairs = 0, letters = 0, bad = SIZE_MAX, line = 1;
    uint16_t hours = 0, numbers[9];
    int lengths_differ = 0;
    for (; at < end; line++) {
        const uint8_t *stop = memchr(at, '\n', end - at);
        size_t n = stop ? stop - at : 0;
        int right = stop && n < 8800 && line <= 65535;
        if (right && n > 4 && !memcmp(at, "plan", 4)) {
            right = line == 1 && plain_numbers(at + 4, stop, numbers, 9) == 2;
            hours = numbers[0];
            c->capacities[0] = numbers[1];
        } else if (right && n > 4 && !memcmp(at, "cal\t", 4)) {
            lengths_differ |= n - 4 != hours;
            uint8_t *packed = c->calendars + calendars * SHIMLANTERN_CALENDAR_BYTES(hours);
            for (size_t t = 0; t < n - 4; t++, letters++) {
                unsigned code = at[4 + t] == 'r' ? 1 : at[4 + t] == 'o' ? 2 : 0;
                if (!code && at[4 + t] != 'c' && bad == SIZE_MAX) bad = letters;
                if (calendars >= CALENDARS || t >= hours) continue;
                if (t % 4 == 0) packed[t / 4] = 0;
                packed[t / 4] |= code << 2 * (t % 4);
            }
            calendars++;
        } else if (right && n > 4 && !memcmp(at, "task", 4)) {
            right = plain_numbers(at + 4, stop, numbers, 9) == 9;
            if (right && tasks < TASKS) {
                c->task_calendars[tasks] = numbers[0];
                c->work_times[tasks] = numbers[1];
                c->heights[tasks] = numbers[2];
                memcpy(c->boxes + 6 * tasks, numbers + 3, 6 * sizeof *numbers);
            }
            tasks++;
        } else if (right && n > 5 && !memcmp(at, "after", 5)) {
            right = plain_numbers(at + 5, stop, numbers, 9) == 2;
            if (right && pairs < PAIRS) memcpy(c->pairs + 2 * pairs, numbers, 2 * sizeof *numbers);
            pairs++;
        } else
            right = 0;
        if (!right) break;
        at = stop + 1;
    }
    uint64_t number = at < end ? 1 : !hours || hours > YEAR ? 2 : calendars < 1 || calendars > CALENDARS || lengths_differ ? 3 : 0;
    if (!number) number = bad < SIZE_MAX ? 4 : tasks > TASKS ? 5 : pairs > PAIRS ? 19 : 0;
    answer[0] = number;
    answer[1] = number == 1 ? line : number == 4 ? bad : 0;
}

/* The times that the library and the plain reader take for a byte. */
struct reading_times {
    double library, plain;
};

/* Reads a text of so many calendars of a year, so many tasks and as many pairs as make so many lines, so many times. */
static struct reading_times time_reading(const char *name, size_t calendars, size_t tasks, size_t lines, int times) {
    static uint8_t text[1 << 23];
    static struct cells c, plain_cells;
    uint64_t answer[SHIMLANTERN_READ_NUMBERS], plain_answer[2];
    double library = 1e9, plain = 1e9;
    char *at = (char *)text;
    at += sprintf(at, "plan\t%d\t4\n", YEAR);
    for (size_t k = 0; k < calendars; k++) {
        at += sprintf(at, "cal\t");
        for (size_t t = 0; t < YEAR; t++) *at++ = "rrrrrrrrrrrrrrrrrrrroocc"[(t + 5 * k) % 24];
        *at++ = '\n';
    }
    for (size_t k = 0; k < tasks; k++)
        at += sprintf(at, "task\t%zu\t%zu\t%zu\t%zu\t8000\t1\t%d\t0\t%zu\n", k % calendars, 1 + k % 40, k % 4, 7 * k % 8000, YEAR, k % 2);
    for (size_t k = 1 + calendars + tasks; k < lines; k++) at += sprintf(at, "after\t%zu\t%zu\n", k % 64, (k + 1) % 64);
    size_t length = at - (char *)text;
    for (int k = 0; k < times; k++) {
        double start = seconds();
        shimlantern_read_plan(text, length, c.capacities, ROOMS, c.calendars, sizeof c.calendars, c.task_calendars, TASKS, c.work_times, TASKS,
                              c.heights, ROOMS * TASKS, c.pairs, 2 * PAIRS, c.boxes, 6 * TASKS, answer);
        double between = seconds();
        plain_read(text, length, &plain_cells, plain_answer);
        library = lesser(library, between - start);
        plain = lesser(plain, seconds() - between);
        if (answer[0] != plain_answer[0] || answer[1] != plain_answer[1]) {
            fprintf(stderr, "%s: the two differ\n", name);
            exit(1);
        }
        if (!answer[0] && memcmp(&c, &plain_cells, sizeof c)) {
            fprintf(stderr, "%s: the two read differently\n", name);
            exit(1);
        }
    }
    char told[80];
    snprintf(told, sizeof told, "%s, %zu kB", name, (length + 500) / 1000);
    print_times(told, library, plain);
    return (struct reading_times){library / length, plain / length};
}

/* What a time is of another; at most so many times it. */
static int within(const char *name, double time, double of, double most) {
    printf("%-54s %9.2f, at most %.2f\n", name, time / of, most);
    return time <= most * of;
}

int main(void) {
    time_filter("filter, mostly regular hours", mostly_regular, 10);
    time_filter("filter, mostly regular hours, eight rooms", eight_rooms, 10);
    time_filter("filter, mostly regular hours, 256 pairs", with_pairs, 10);
    time_filter("filter, regular and overtime by turns", by_turns, 3);
    time_filter("filter, closed hours by turns, eight rooms", closed_by_turns, 10);
    time_filter("filter, pushed later hour by hour, L", pushed_later, 10);
    time_filter("filter, pushed earlier hour by hour, U", pushed_earlier, 10);
    /* Named as in older benches, so that --before pairs the two: the plan has 1,008 hours, and more steps than a year has. */
    time_filter("filter, a year of turns, greatest sizes", greatest_sizes, 3);
    double ninth = time_filter("filter, a ninth of a year, eight rooms", a_ninth, 5);
    double year = time_filter("filter, a year, eight rooms", a_year, 2);
    time_rule("calendar rule, all overtime, p = 504", "o", HOURS, 504, 200);
    time_rule("calendar rule, regular and overtime by turns, p = 100", "ro", HOURS, 100, 200);
    time_rule("calendar rule, shifts with overtime, p = 60", "ooooorrrrrrrccccccccoooo", HOURS, 60, 200);
    time_rule("calendar rule, mostly regular hours, p = 8", "rrrrrrrrrrrrrrrrrrrrrrrro", HOURS, 8, 200);
    time_rule("calendar rule, a year of shifts, p = 60", "ooooorrrrrrrccccccccoooo", YEAR, 60, 20);
    struct reading_times part = time_reading("reading, 4,096 lines, tasks and pairs", 1, 2047, 4096, 100);
    struct reading_times whole = time_reading("reading, 65,535 lines, tasks and pairs", 1, 32767, 65535, 30);
    time_reading("reading, a plan of the greatest size", 16, 64, 337, 100);
    time_reading("reading, 400 calendars of a year", 400, 64, 465, 10);
    int kept = within("a year, of a ninth of it", year, ninth, 9);
    kept &= within("65,535 lines, of the plain reader", whole.library, whole.plain, 3);
    kept &= within("a byte of 65,535 lines, of one of 4,096", whole.library, part.library, 2);
    return !kept;
}
