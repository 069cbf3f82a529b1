"""The specification, whose rules docs/REFERENCE.md states, in plain Python, written from its text alone and from no code of the product.
tests/compare holds the library to it.

A calendar is bytes of r, c, o. A plan has its calendars as they lie in memory: packed, joined. A box is six numbers: S, E, O, the lower bound
first. Heights lie room by room, each room's of all tasks, and pairs one after the other, the earlier task first. A step is (kind, task, hour), its
kind a byte's number, its task a room's number where the kind is O, and a pair's where it is F or B. A refusal is (number, place)."""

from functools import cached_property, lru_cache
from itertools import accumulate
from typing import NamedTuple

MOST_HOURS = 8784
MOST_CALENDARS = 16
MOST_TASKS = 64
MOST_ROOMS = 8
MOST_PAIRS = 256
MOST_HEIGHT = 1000
MOST_CAPACITY = 60000
MOST_NUMBER = 65535
MOST_LINE = 8800
MOST_LINES = 65535
MOST_WRITTEN = 149066
PROGRAM_ROOM = 2048

# The valid triples of a box with more triples than this are found by counts, and of any other by listing; tests/compare holds the two to each
# other.
MOST_LISTED = 2000

# The limits of plan text when calendars lay in memory as letters: of H, and of the bytes of a text.
FORMER_HOURS, FORMER_BYTES = 1008, 32768


# Packed calendars

LETTERS = b"cro"


def packed_length(hours):
    """How many bytes a packed calendar has."""
    return (hours + 3) // 4


def code_at(packed, hour):
    """The number of an hour: bits 2 (t mod 4) and 2 (t mod 4) + 1 of byte t div 4."""
    low, high = 2 * (hour % 4), 2 * (hour % 4) + 1
    byte = packed[hour // 4]
    return (byte >> low & 1) + 2 * (byte >> high & 1)


@lru_cache(maxsize=4096)
def is_packed(packed, hours):
    """No hour has a 3, and no bit past the hours is set."""
    codes = [code_at(packed, hour) for hour in range(4 * len(packed))]
    return 3 not in codes[:hours] and not any(codes[hours:])


@lru_cache(maxsize=4096)
def unpack(packed, hours):
    """The letters of a packed calendar, none of whose hours has a 3."""
    return bytes(LETTERS[code_at(packed, hour)] for hour in range(hours))


@lru_cache(maxsize=4096)
def pack(calendar):
    """A calendar of r, c, o, packed."""
    packed = bytearray(packed_length(len(calendar)))
    for hour, letter in enumerate(calendar):
        packed[hour // 4] += LETTERS.index(letter) << 2 * (hour % 4)
    return bytes(packed)


class Plan(NamedTuple):
    hours: int
    capacities: tuple
    calendars: bytes
    task_calendars: tuple
    work_times: tuple
    heights: tuple
    pairs: tuple = ()

    def tasks(self):
        return len(self.task_calendars)

    def rooms(self):
        return len(self.capacities)

    def heights_in(self, room):
        """The tasks' heights in a room."""
        return self.heights[room * self.tasks() : (room + 1) * self.tasks()]

    def heights_of(self, task):
        """The task's heights in the rooms."""
        return self.heights[task :: self.tasks()]

    def each_pair(self):
        """The pairs: an earlier and a later task each."""
        return list(zip(self.pairs[0::2], self.pairs[1::2]))

    def each_packed(self):
        """The calendars, packed."""
        size = packed_length(self.hours)
        return [self.calendars[first : first + size] for first in range(0, len(self.calendars), size)]

    def calendar(self, task):
        """The task's calendar, in letters."""
        size = packed_length(self.hours)
        first = self.task_calendars[task] * size
        return unpack(self.calendars[first : first + size], self.hours)


# When a task fits its calendar


def valid(calendar, p, s, e, o):
    if e < 1 or s + e > len(calendar):
        return False
    span = calendar[s : s + e]
    if span[0] == ord("c") or span[-1] == ord("c"):
        return False
    if o != p - span.count(b"r") or o < 0:
        return False
    if o > span.count(b"o"):
        return False
    ends = {s, s + e - 1}
    return sum(calendar[hour] == ord("o") for hour in ends) <= o


def triples_in(box):
    """Every triple of a box, valid or not."""
    s0, s1, e0, e1, o0, o1 = box
    for s in range(s0, s1 + 1):
        for e in range(e0, e1 + 1):
            for o in range(o0, o1 + 1):
                yield s, e, o


def valid_by_listing(calendar, p, box):
    return [t for t in triples_in(box) if valid(calendar, p, *t)]


@lru_cache(maxsize=256)
def hours_before(calendar, letter):
    """How many of the hours before t have the letter, for each t from 0 to H."""
    return [0, *accumulate(symbol == ord(letter) for symbol in calendar)]


def valid_by_counts(calendar, p, box):
    """The same list. For a start and an end there is one o, p minus the regular hours between them, which falls as the end moves on."""
    s0, s1, e0, e1, o0, o1 = box
    regular, overtime = hours_before(calendar, "r"), hours_before(calendar, "o")
    found = []
    for s in range(s0, s1 + 1):
        if calendar[s] == ord("c"):
            continue
        for end in range(s + e0, min(s + e1, len(calendar)) + 1):
            o = p - (regular[end] - regular[s])
            if o < o0:
                break
            if o > o1 or calendar[end - 1] == ord("c") or o > overtime[end] - overtime[s]:
                continue
            if sum(calendar[hour] == ord("o") for hour in {s, end - 1}) <= o:
                found.append((s, end - s, o))
    return found


def valid_triples(calendar, p, box):
    s0, s1, e0, e1, o0, o1 = box
    few = (s1 - s0 + 1) * (e1 - e0 + 1) * (o1 - o0 + 1) <= MOST_LISTED
    return valid_by_listing(calendar, p, box) if few else valid_by_counts(calendar, p, box)


class Fit(NamedTuple):
    """The least and greatest s, e, o and s+e over the valid triples of a box."""

    box: tuple
    ect: int
    lct: int

    def compulsory(self):
        lst = self.box[1]
        return range(lst, self.ect)


@lru_cache(maxsize=None)
def fit_of(calendar, p, box):
    """None where there is no valid triple."""
    found = valid_triples(calendar, p, box)
    if not found:
        return None
    bounds = []
    for field in range(3):
        bounds += [min(t[field] for t in found), max(t[field] for t in found)]
    ends = [s + e for s, e, _ in found]
    return Fit(tuple(bounds), min(ends), max(ends))


class State:
    """The boxes as they stand at a turn, with each task's fit and each hour's load in each room, and how many tasks, rooms or pairs a kind of step
    has."""

    def __init__(self, plan, boxes):
        self.plan = plan
        self.boxes = boxes
        self.pairs = plan.each_pair()
        self.counts = {C: plan.tasks(), O: plan.rooms(), L: plan.tasks(), U: plan.tasks(), F: len(self.pairs), B: len(self.pairs)}
        self.fits = [fit_of(plan.calendar(i), plan.work_times[i], boxes[i]) for i in range(plan.tasks())]
        self.compulsory = [fit.compulsory() if fit else range(0) for fit in self.fits]

    @cached_property
    def loads(self):
        """In each room each hour's load: the heights of the tasks whose compulsory part holds it."""
        return [self.loads_of(self.plan.heights_in(room)) for room in range(self.plan.rooms())]

    def loads_of(self, heights):
        loads = [0] * self.plan.hours
        for height, part in zip(heights, self.compulsory):
            for hour in part:
                loads[hour] += height
        return loads

    def exceeded(self, task, hour):
        """The rooms in which the task's height plus the other tasks' load exceeds the capacity."""
        own = hour in self.compulsory[task]
        rooms = enumerate(zip(self.plan.heights_of(task), self.loads, self.plan.capacities))
        return [room for room, (height, loads, capacity) in rooms if height + (loads[hour] - own * height) > capacity]


def attaining(calendar, p, box):
    """For the lower and the upper bound of S, of E and of O in turn the valid triples that attain it; none where there is no valid triple. A
    bound's witness is the first of them by start, then by elapsed time: the least."""
    found = valid_triples(calendar, p, box)
    bounds = fit_of(calendar, p, box).box if found else ()
    return [[t for t in found if t[k // 2] == bound] for k, bound in enumerate(bounds)]


def calendar_rule(hours, packed, p, box):
    """A refusal and None, or None and the fit, which is None where there is no valid triple. The plan's tests of a plan of one calendar and one task,
    of which two calendars' bytes are none."""
    if not 1 <= hours <= MOST_HOURS:
        return (2, 0), None
    if len(packed) != packed_length(hours):
        return (3, 0), None
    refusal = plan_fault(Plan(hours, (0,), packed, (0,), (p,), (0,)), [box])
    return (refusal, None) if refusal else (None, fit_of(unpack(packed, hours), p, box))


# Refusals


def task_fault(plan, boxes, task):
    hours = plan.hours
    p = plan.work_times[task]
    s0, s1, e0, e1, o0, o1 = boxes[task]
    if plan.task_calendars[task] >= len(plan.each_packed()):
        return 6, task
    if not 1 <= p <= hours:
        return 7, task
    if any(height > MOST_HEIGHT for height in plan.heights_of(task)):
        return 8, task
    if not (0 <= s0 <= s1 <= hours - 1 and 1 <= e0 <= e1 <= hours and 0 <= o0 <= o1 <= p):
        return 9, task
    return None


def plan_fault(plan, boxes):
    """The first of 2, 3, 21, 5, 19, 17, 10, task by task 6 to 9 and pair by pair 18."""
    if not 1 <= plan.hours <= MOST_HOURS:
        return 2, 0
    calendars = plan.each_packed()
    if not 1 <= len(calendars) <= MOST_CALENDARS or any(len(packed) != packed_length(plan.hours) for packed in calendars):
        return 3, 0
    for at, packed in enumerate(calendars):
        if not is_packed(packed, plan.hours):
            return 21, at
    return counts_fault(plan, boxes)


def counts_fault(plan, boxes):
    """Those of them from 5 on."""
    if plan.tasks() > MOST_TASKS:
        return 5, 0
    if len(plan.each_pair()) > MOST_PAIRS:
        return 19, 0
    if not 1 <= plan.rooms() <= MOST_ROOMS:
        return 17, 0
    if any(capacity > MOST_CAPACITY for capacity in plan.capacities):
        return 10, 0
    for task in range(plan.tasks()):
        refusal = task_fault(plan, boxes, task)
        if refusal:
            return refusal
    for pair, (earlier, later) in enumerate(plan.each_pair()):
        if earlier >= plan.tasks() or later >= plan.tasks() or earlier == later:
            return 18, pair
    return None


# Schedules


def schedule_fault(plan, boxes, schedule):
    for task, triple in enumerate(schedule):
        lower, upper = boxes[task][0::2], boxes[task][1::2]
        if not all(a <= x <= b for a, x, b in zip(lower, triple, upper)):
            return 14, task
        if not valid(plan.calendar(task), plan.work_times[task], *triple):
            return 15, task
    rooms = [(plan.heights_in(room), capacity) for room, capacity in enumerate(plan.capacities)]
    for hour in range(plan.hours):
        running = [i for i, (s, e, _) in enumerate(schedule) if s <= hour < s + e]
        if any(sum(heights[i] for i in running) > capacity for heights, capacity in rooms):
            return 16, hour
    for pair, (earlier, later) in enumerate(plan.each_pair()):
        s, e, _ = schedule[earlier]
        if s + e > schedule[later][0]:
            return 20, pair
    return None


def makespan(schedule):
    return max((s + e for s, e, _ in schedule), default=0)


def check_schedule(plan, boxes, schedule):
    """A refusal and 0, or None and the makespan."""
    refusal = plan_fault(plan, boxes) or schedule_fault(plan, boxes, schedule)
    return (refusal, 0) if refusal else (None, makespan(schedule))


# Steps

UNKNOWN, NOT_ADMITTED, IMPOSSIBLE = "unknown", "not admitted", "impossible"

C, O, L, U, F, B = b"COLUFB"


def judge(state, step):
    """What a step comes to at its turn: UNKNOWN, NOT_ADMITTED, IMPOSSIBLE or the boxes that it leaves."""
    kind, task, hour = step
    plan, boxes = state.plan, state.boxes
    if task >= state.counts.get(kind, 0):
        return UNKNOWN
    if hour >= plan.hours if kind in b"OLU" else hour != 0:
        return UNKNOWN

    if kind == O:
        return IMPOSSIBLE if state.loads[task][hour] > plan.capacities[task] else NOT_ADMITTED
    if kind in b"FB":
        return judge_pair(state, kind, *state.pairs[task])

    fit = state.fits[task]
    s0, s1, e0, e1, o0, o1 = boxes[task]
    if kind == C:
        if fit is None:
            return IMPOSSIBLE
        return NOT_ADMITTED if fit.box == boxes[task] else moved(boxes, task, fit.box)

    if fit is None:
        return NOT_ADMITTED
    if kind == L:
        if not (fit.ect > hour and s0 <= hour and state.exceeded(task, hour)):
            return NOT_ADMITTED
        return IMPOSSIBLE if hour >= s1 else moved(boxes, task, (hour + 1, s1, e0, e1, o0, o1))
    lst = fit.box[1]
    if not (lst <= hour and s1 > hour - e0 and state.exceeded(task, hour)):
        return NOT_ADMITTED
    return IMPOSSIBLE if hour - e0 < s0 else moved(boxes, task, (s0, hour - e0, e0, e1, o0, o1))


def judge_pair(state, kind, earlier, later):
    """F raises the later task's lower S to the earlier's ect; B lowers the earlier's upper S to the later's lst minus the earlier's lower E."""
    if state.fits[earlier] is None or state.fits[later] is None:
        return NOT_ADMITTED
    if kind == F:
        s0, s1, *others = state.boxes[later]
        bound = state.fits[earlier].ect
        if bound <= s0:
            return NOT_ADMITTED
        return IMPOSSIBLE if bound > s1 else moved(state.boxes, later, (bound, s1, *others))
    s0, s1, e0, *others = state.boxes[earlier]
    lst = state.fits[later].box[1]
    bound = lst - e0
    if bound >= s1:
        return NOT_ADMITTED
    return IMPOSSIBLE if bound < s0 else moved(state.boxes, earlier, (s0, bound, e0, *others))


def moved(boxes, task, box):
    return boxes[:task] + [box] + boxes[task + 1 :]


class LogEnd(NamedTuple):
    refusal: tuple
    steps: int
    impossible: bool
    boxes: list


def replay(plan, boxes, log):
    said = False
    for k, step in enumerate(log):
        if said:
            return LogEnd((13, k), k, said, boxes)
        judged = judge(State(plan, boxes), step)
        if judged == UNKNOWN:
            return LogEnd((11, k), k, said, boxes)
        if judged == NOT_ADMITTED:
            return LogEnd((12, k), k, said, boxes)
        if judged == IMPOSSIBLE:
            said = True
        else:
            boxes = judged
    return LogEnd(None, len(log), said, boxes)


def check_log(plan, boxes, log):
    refusal = plan_fault(plan, boxes)
    return LogEnd(refusal, 0, False, boxes) if refusal else replay(plan, boxes, log)


# The filter's order of kinds (W-207: O before C), and the one before it.
ORDER, FORMER_ORDER = b"OCLUFB", b"COLUFB"


def admitted(state, order=ORDER):
    """The admitted steps in an order of kinds, and what each comes to: O by room, then hour; C by task; L and U by task, then hour; F and B by
    pair."""
    for kind in order:
        hours = range(state.plan.hours if kind in b"OLU" else 1)
        for step in ((kind, at, hour) for at in range(state.counts[kind]) for hour in hours):
            judged = judge(state, step)
            if judged != NOT_ADMITTED:
                yield step, judged


@lru_cache(maxsize=4)
def state_at(plan, boxes):
    """The state of a turn, for the kinds that are asked one after the other."""
    return State(plan, list(boxes))


@lru_cache(maxsize=24576)
def first_of_kind(plan, boxes, kind):
    """The first admitted step of a kind and what it comes to, or None; boxes as a tuple, so that runs in another order, or with other room for the
    log, share what was found."""
    return next(admitted(state_at(plan, boxes), [kind]), None)


def next_step(plan, boxes, order):
    """The first admitted step in an order of kinds and what it comes to, or None."""
    return next(filter(None, (first_of_kind(plan, boxes, kind) for kind in order)), None)


class Run(NamedTuple):
    refusal: tuple
    ending: str
    log: list
    boxes: list


def run_filter(plan, boxes, room, order=ORDER):
    refusal = plan_fault(plan, boxes)
    if refusal:
        return Run(refusal, "refused", [], boxes)
    log = []
    while True:
        found = next_step(plan, tuple(boxes), order)
        if found is None:
            return Run(None, "settled", log, boxes)
        if len(log) == room:
            return Run((32, 0), "room", log, boxes)
        step, judged = found
        log.append(step)
        if judged == IMPOSSIBLE:
            return Run(None, "impossible", log, boxes)
        boxes = judged


def widths(boxes):
    return sum(upper - lower for box in boxes for lower, upper in zip(box[0::2], box[1::2]))


# Plan text and listing


def number(field):
    """The number of a field, or None."""
    digits = field and all(byte in b"0123456789" for byte in field)
    if not digits or (field[:1] == b"0" and field != b"0") or int(field) > MOST_NUMBER:
        return None
    return int(field)


def numbers(fields):
    found = [number(field) for field in fields]
    return None if None in found else found


@lru_cache(maxsize=64)
def parse(text, most_line=MOST_LINE, most_lines=MOST_LINES, most_bytes=None):
    """The number of the first line that breaks the rules and None, or None and (H, capacities, calendar lines, task lines, after lines)."""
    head, calendars, tasks, afters = None, [], [], []
    lines = text.split(b"\n")
    too_long = text[:most_bytes].count(b"\n") + 1 if most_bytes is not None and len(text) > most_bytes else None
    for at, line in enumerate(lines, 1):
        last = at == len(lines)
        if last and line == b"" and at > 1:
            break
        if last or at == too_long or len(line) + 1 > most_line or at > most_lines:
            return at, None
        word, *fields = line.split(b"\t")
        if word == b"plan" and at == 1 and fields and numbers(fields) is not None:
            head = numbers(fields)
        elif word == b"cal" and head and not tasks and not afters and len(fields) == 1 and fields[0] != b"":
            calendars.append(fields[0])
        elif word == b"task" and head and not afters and len(fields) - len(head[1:]) in (2, 8) and numbers(fields) is not None:
            tasks.append(numbers(fields))
        elif word == b"after" and head and len(fields) == 2 and numbers(fields) is not None:
            afters.append(numbers(fields))
        else:
            return at, None
    return None, (head[0], head[1:], calendars, tasks, afters)


def read_plan(text, enough=True):
    """A refusal and None, or None and (the plan, how many calendars, its boxes)."""
    broken, read = parse(text)
    if broken:
        return (1, broken), None
    return ((31, 0), None) if not enough else plan_read(read, MOST_HOURS)


def former_read_plan(text):
    """The same when calendars lay in memory as letters: no limit but that of all bytes (which are no more lines either), and the hours of then."""
    broken, read = parse(text, most_line=FORMER_BYTES, most_lines=FORMER_BYTES, most_bytes=FORMER_BYTES)
    return ((1, broken), None) if broken else plan_read(read, FORMER_HOURS)


def plan_read(read, most_hours):
    """What the lines of a well-formed text come to, by the tests 2, 3, 4 and those after."""
    hours, capacities, calendars, tasks, afters = read
    rooms = len(capacities)
    if not 1 <= hours <= most_hours:
        return (2, 0), None
    if not 1 <= len(calendars) <= MOST_CALENDARS or any(len(symbols) != hours for symbols in calendars):
        return (3, 0), None
    for index, symbol in enumerate(b"".join(calendars)):
        if symbol not in b"rco":
            return (4, index), None
    task_calendars, work_times = (tuple(task[k] for task in tasks) for k in range(2))
    heights = tuple(task[2 + room] for room in range(rooms) for task in tasks)
    pairs = tuple(task for after in afters for task in after)
    packed = b"".join(map(pack, calendars))
    plan = Plan(hours, tuple(capacities), packed, task_calendars, work_times, heights, pairs)
    boxes = [tuple(task[2 + rooms :]) or (0, hours - 1, task[1], hours, 0, 0) for task in tasks]
    refusal = counts_fault(plan, boxes)
    return (refusal, None) if refusal else (None, (plan, len(calendars), boxes))


def record(word, *fields):
    """A line of a word and numbers."""
    return b"\t".join([word, *(b"%d" % n for n in fields)]) + b"\n"


def plan_text(plan, boxes):
    """A plan as text, every task line with all its bounds."""
    lines = [record(b"plan", plan.hours, *plan.capacities)]
    lines += [b"cal\t" + unpack(packed, plan.hours) + b"\n" for packed in plan.each_packed()]
    for task, box in enumerate(boxes):
        lines.append(record(b"task", plan.task_calendars[task], plan.work_times[task], *plan.heights_of(task), *box))
    lines += [record(b"after", *pair) for pair in plan.each_pair()]
    return b"".join(lines)


def write_plan(plan, boxes, room):
    """A refusal and None, or None and the text; the room is the length of the memory to write to."""
    refusal = plan_fault(plan, boxes)
    if refusal:
        return refusal, None
    text = plan_text(plan, boxes)
    return ((33, 0), None) if room < len(text) else (None, text)


def listing(text):
    refusal, read = read_plan(text)
    if refusal:
        return record(b"refused", *refusal)
    plan, _, boxes = read
    run = run_filter(plan, boxes, PROGRAM_ROOM)
    lines = [record(run.ending.encode(), len(run.log))]
    lines += [record(b"task", task, *box) for task, box in enumerate(run.boxes)]
    return b"".join(lines)
