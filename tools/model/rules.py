"""The rules of docs/RULES.md as plain functions, written from the rules and apart from the library. An order is a list of
bytes; a job its seven numbers: number, pack, critical, weight, ready, length, deadline; a profile alternating numbers. A
call's answer is a tuple that begins with a word for its kind, as ('refused', number, place, field). A refusal on its way
there is its three figures."""
from fractions import Fraction
from functools import lru_cache
from itertools import product

EARLIEST, LATEST = -100_000, 100_000
REST = 15
LATEST_FREE = LATEST + REST
WORK_AREA = 14_749
PROFILE_ROOM = 602
PLAN_ROOM = 114  # bytes of the longest packed plan
LEFT_OUT = 200_000
HIGHEST_HALF, APART, PER_WEIGHT = 31, 32, 60  # of an order of halves
LONGEST_FRAME = 86_400  # and the longest deadline and period of a repeating job
MANY = 10  # up to so many jobs every choice is tried as well
MOST_ORDERS = 10_000  # of a sheet
MOST_POINTS = 14_448  # the greatest point total that there can be
FIGURES, HELD, FRONT, TEXT_ROOM = 26, 29, 437, 336  # rooms of a sheet, a stream (numbers, bytes), a text (bytes)
# The bits of each field of a job in a record, by the record's kind. One that has none is 0.
WIDTHS = (6, 0, 1, 7, 18, 14, 18), (6, 8, 1, 7, 18, 14, 18)
HAS_SIGN = (False, False, False, False, True, False, True)
ACCEPTED = (0, 0, 0)  # no refusal


# ---- packed orders (R21, R22), orders of halves (R34) and refusals 1 to 7, 9, 13 and 19 (R24)

def bits(value, width):
    return ''.join(str(value >> place & 1) for place in reversed(range(width)))


def signed(text):
    return int(text, 2) - (int(text[0]) << len(text))


def bits_in(data):
    return ''.join(bits(byte, 8) for byte in data)


def bytes_of(text):
    return [int(text[i:i + 8], 2) for i in range(0, len(text), 8)]


def kind_of(jobs):
    """The kind of the records of jobs: 1 where one has a pack other than 0."""
    return int(any(job[1] for job in jobs))


def size(kind, count):
    """The bytes of a packed order of so many jobs."""
    return 4 + sum(WIDTHS[kind]) // 8 * count


def packed(t0, jobs):
    kind = kind_of(jobs)
    text = bits(len(jobs), 6) + bits(t0, 18) + bits(kind, 8)
    for job in jobs:
        text += ''.join(bits(value, width) for value, width in zip(job, WIDTHS[kind]))
    return bytes_of(text)


def header(data):
    text = bits_in(data[:4])
    return int(text[:6], 2), signed(text[6:24]), int(text[24:], 2)


def record(data, place):
    kind = header(data)[2]
    text = bits_in(data[size(kind, place):size(kind, place + 1)])
    job = []
    for width, has_sign in zip(WIDTHS[kind], HAS_SIGN):
        field, text = text[:width], text[width:]
        job.append(signed(field) if has_sign else int('0' + field, 2))
    return tuple(job)


def records(data):
    return [record(data, place) for place in range(header(data)[0])]


def is_time(value):
    return EARLIEST <= value <= LATEST


def bad_field(job):
    """Which field of a job is out of range, the first by the layout, counted from 1; 0 if none is."""
    number, pack_number, critical, weight, ready, length, deadline = job
    weighs = weight == 0 if critical == 1 else 1 <= weight <= 50
    passed = (0 <= number <= 63, 0 <= pack_number <= 255, critical in (0, 1), weighs, is_time(ready), 1 <= length <= 10_000,
              is_time(deadline))
    return 0 if all(passed) else 1 + passed.index(False)


def judge_header(data):
    """Refusals 1 to 5 and then 19, 0 for none."""
    if len(data) < 4:
        return 1
    count, t0, kind = header(data)
    if kind > 1:
        return 2
    if count > 48:
        return 3
    if len(data) != size(kind, count):
        return 4
    if not is_time(t0):
        return 5
    return 0 if kind == kind_of(records(data)) else 19


def judge_jobs(jobs):
    """Refusals 6 and 7 with their place, 6 with its field too."""
    for place, job in enumerate(jobs):
        if bad_field(job):
            return 6, place, bad_field(job)
    numbers = [job[0] for job in jobs]
    for place, number in enumerate(numbers):
        if number in numbers[:place]:
            return 7, place, 0
    return ACCEPTED


def weigh(jobs):
    return sum(job[3] for job in jobs)


def then(refusal, applies, number):
    """A refusal, or behind one that is none the number where it applies."""
    return (number, 0, 0) if refusal == ACCEPTED and applies else refusal


def refused(refusal):
    return ('refused',) + refusal


def read(data):
    """A packed order judged up to 7: refusal, t0 and jobs."""
    number = judge_header(data)
    if number:
        return (number, 0, 0), 0, []
    return judge_jobs(records(data)), header(data)[1], records(data)


def judge(data):
    """The same, and 9."""
    refusal, t0, jobs = read(data)
    return then(refusal, weigh(jobs) > 300, 9), t0, jobs


def offends(job, earlier):
    """Whether a job offends in an order of halves, behind the earlier jobs."""
    number, _, critical, weight, _, length, _ = job
    if critical:
        return number > HIGHEST_HALF
    partners = [other[0] for other in earlier if other[2] and other[0] <= HIGHEST_HALF]
    return length != PER_WEIGHT * weight or number - APART not in partners


def judge_halves(data):
    """A packed order judged up to 9, and then 13."""
    refusal, t0, jobs = judge(data)
    offending = [at for at, job in enumerate(jobs) if offends(job, jobs[:at])]
    if refusal == ACCEPTED and offending:
        refusal = 13, offending[0], 0
    return refusal, t0, jobs


def unpack(data, room):
    refusal, t0, jobs = judge(data)
    refusal = then(refusal, room < 7 * len(jobs), 10)
    if refusal != ACCEPTED:
        return refused(refusal), []
    return ('jobs', len(jobs), t0), [number for job in jobs for number in job]


def pack(t0, numbers, room):
    jobs = [tuple(numbers[at:at + 7]) for at in range(0, len(numbers) - 6, 7)]
    refusal = then(ACCEPTED, len(numbers) > 336, 3)
    refusal = then(refusal, len(numbers) % 7, 4)
    refusal = then(refusal, not is_time(t0), 5)
    if refusal == ACCEPTED:
        refusal = judge_jobs(jobs)
    refusal = then(refusal, weigh(jobs) > 300, 9)
    refusal = then(refusal, room < size(kind_of(jobs), len(jobs)), 10)
    if refusal != ACCEPTED:
        return refused(refusal), []
    return ('bytes', size(kind_of(jobs), len(jobs))), packed(t0, jobs)


# ---- frames of repeating jobs (R41 to R43): critical, weight, phase, length, deadline, period of each

def repeats_well(job):
    """Whether a repeating job's fields are in range, and the rest after its deadline ends within its period."""
    critical, weight, phase, length, deadline, period = job
    weighs = weight == 0 if critical == 1 else 1 <= weight <= 50
    return (critical in (0, 1) and weighs and phase >= 0 and 1 <= length <= 10_000 and 1 <= deadline <= LONGEST_FRAME
            and 1 <= period <= LONGEST_FRAME and phase + deadline + REST <= period)


def frame_of(periods):
    """The least time that every period divides, 1 where there is none; none where it is too long."""
    step = max(periods, default=1)
    common = (time for time in range(step, LONGEST_FRAME + 1, step) if not any(time % period for period in periods))
    return next(common, None)


def repeats(jobs, frame):
    """The jobs of one frame, by ready time and then by the place given."""
    ready = sorted((time, place) for place, job in enumerate(jobs) for time in range(job[2], frame, job[5]))
    made = []
    for number, (time, place) in enumerate(ready):
        critical, weight, _, length, deadline, _ = jobs[place]
        made.append((number, 0, critical, weight, time, length, time + deadline))
    return made


def frame(numbers, room):
    """The packed order of one frame. Only 16 has a place, and none a field."""
    jobs = [tuple(numbers[at:at + 6]) for at in range(0, len(numbers) - 5, 6)]
    refusal = then(ACCEPTED, len(numbers) > 96, 3)
    refusal = then(refusal, len(numbers) % 6, 4)
    offending = [place for place, job in enumerate(jobs) if not repeats_well(job)]
    if refusal == ACCEPTED and offending:
        refusal = 16, offending[0], 0
    seconds = frame_of([job[5] for job in jobs]) if refusal == ACCEPTED else None
    refusal = then(refusal, seconds is None, 17)
    made = repeats(jobs, seconds) if refusal == ACCEPTED else []
    refusal = then(refusal, len(made) > 48, 3)
    refusal = then(refusal, weigh(made) > 300, 9)
    refusal = then(refusal, room < size(0, len(made)), 10)
    if refusal != ACCEPTED:
        return refused(refusal), []
    assert judge_jobs(made) == ACCEPTED, made
    return ('frame', size(0, len(made)), seconds), packed(0, made)


# ---- the reader (R23), heat-up (R19, R20)

def step(data, place):
    """The answer, and the place where the reader then stands."""
    number = judge_header(data)
    if number:
        return refused((number, 0, 0)), place
    if place >= header(data)[0]:
        return ('end',), place
    job = record(data, place)
    return (refused((6, place, bad_field(job))), place) if bad_field(job) else (('job',) + job, place + 1)


def heat(byte):
    """The seconds, degree by degree up to 10; none where the cell is too cold."""
    degrees = byte - 256 if byte > 127 else byte
    if degrees < -30:
        return None
    return sum(45 if degree >= -10 else 120 for degree in range(degrees, 10))


# ---- choices (R5, R6): a choice is a 1 or a 0 for each job

def run(free, jobs, choice):
    """The starts and the bus-free time of a choice; none if it is not feasible."""
    starts = []
    for (_, _, critical, _, ready, length, deadline), kept in zip(jobs, choice):
        start = max(ready, free) if kept else LEFT_OUT
        if critical and not kept or kept and start + length > deadline:
            return None
        starts.append(start)
        free = start + length + REST if kept else free
    return starts, free


def kept_weight(jobs, choice):
    return weigh(job for job, kept in zip(jobs, choice) if kept)


def feasible(free, jobs):
    """Every feasible choice: its weight, its bus-free time, itself."""
    for choice in product((0, 1), repeat=len(jobs)):
        ran = run(free, jobs, choice)
        if ran:
            yield kept_weight(jobs, choice), ran[1], choice


def prefixes(free, jobs):
    """For each prefix of the jobs, for each weight the ways to it that may lead to a plan: bus-free time and ties, a bit for
    each job kept, the highest for the last. A way stays if none of the same weight is as early and comes first by ties."""
    ways = {0: [(free, 0)]}
    yield ways
    for place, (_, _, critical, weight, ready, length, deadline) in enumerate(jobs):
        after = {}
        for before, times in ways.items():
            for time, ties in times:
                if not critical:
                    after.setdefault(before, []).append((time, ties))
                finish = max(ready, time) + length
                if finish <= deadline:
                    after.setdefault(before + weight, []).append((finish + REST, ties | 1 << place))
        ways = {weight: unbeaten(times) for weight, times in after.items()}
        yield ways


def unbeaten(times):
    stay = []
    for time, ties in sorted(times):
        if not stay or ties < stay[-1][1]:
            stay.append((time, ties))
    return stay


# ---- plans and profiles (R7 to R15)

def best(free, jobs):
    """The plan's choice (R7); none if nothing is feasible."""
    *_, ways = prefixes(free, jobs)
    ties = ways[max(ways)][0][1] if ways else 0
    choice = tuple(ties >> place & 1 for place in range(len(jobs))) if ways else None
    if len(jobs) <= MANY:
        ranked = [(-weight, time, tried[::-1]) for weight, time, tried in feasible(free, jobs)]
        assert choice == (min(ranked)[2][::-1] if ranked else None), (free, jobs)
    return choice


def shortest(points):
    """The shortest profile that gives at each time the greatest weight of the points by then."""
    rising = []
    for time, weight in sorted(points, key=lambda point: (point[0], -point[1])):
        if not rising or weight > rising[-1][1]:
            rising.append((time, weight))
    return rising


def profile_of(ways):
    return shortest((times[0][0], weight) for weight, times in ways.items())


def profile_from(free, jobs):
    """The profile of jobs run from one time (R13)."""
    *_, ways = prefixes(free, jobs)
    profile = profile_of(ways)
    if len(jobs) <= MANY:
        assert profile == shortest((time, weight) for weight, time, _ in feasible(free, jobs)), (free, jobs)
    return profile


def point_total(free, jobs):
    return sum(len(profile_of(ways)) for ways in list(prefixes(free, jobs))[1:])


def points_in(numbers):
    return list(zip(numbers[0::2], numbers[1::2]))


def numbers_in(points):
    return [number for point in points for number in point]


def valid(numbers):
    times, weights = numbers[0::2], numbers[1::2]
    rising = all(a < b for these in (times, weights) for a, b in zip(these, these[1:]))
    return (len(numbers) % 2 == 0 and len(numbers) <= PROFILE_ROOM and rising
            and all(EARLIEST <= time <= LATEST_FREE for time in times) and all(0 <= weight <= 300 for weight in weights))


def last_by(points, t):
    """The last point at or before t, none where there is no point."""
    return max((point for point in points if point[0] <= t), default=None)


# ---- the calls on profiles and orders: the answer, what is written, and whether the work area is cleared (R25, R28, R29)

def plan_judged(judged, room, work):
    """Planning an order behind the checks of the order itself."""
    refusal, t0, jobs = judged
    refusal = then(refusal, room < len(jobs) or work < WORK_AREA, 10)
    if refusal != ACCEPTED:
        return refused(refusal), [], False
    choice = best(t0, jobs)
    if choice is None:
        return refused((11, 0, 0)), [], True
    starts, free = run(t0, jobs, choice)
    mask = sum(kept << 63 - place for place, kept in enumerate(choice))
    kept = kept_weight(jobs, choice)
    return ('made', mask, sum(choice), kept, weigh(jobs) - kept, free, point_total(t0, jobs)), starts, True


def plan(data, room, work):
    return plan_judged(judge(data), room, work)


def plan_halves(data, room, work):
    """The same of an order of halves, and the optional seconds lost."""
    judged = judge_halves(data)
    answer, starts, cleared = plan_judged(judged, room, work)
    if answer[0] == 'made':
        left_out = [job for job, start in zip(judged[2], starts) if start == LEFT_OUT]
        answer += (sum(length for _, _, critical, _, _, length, _ in left_out if not critical),)
    return answer, starts, cleared


def extend(numbers, data, room, work):
    refusal, _, jobs = read(data)
    refusal = then(refusal, not valid(numbers), 8)
    refusal = then(refusal, weigh(jobs) + sum(numbers[-1:]) > 300, 9)
    refusal = then(refusal, room < PROFILE_ROOM or work < WORK_AREA, 10)
    if refusal != ACCEPTED:
        return refused(refusal), [], False
    points = shortest((free, weight + kept) for time, weight in points_in(numbers) for free, kept in profile_from(time, jobs))
    assert valid(numbers_in(points)), points
    return ('points', len(points)), numbers_in(points), True


def better(one, other, room):
    refusal = 10 if room < PROFILE_ROOM else 0
    if not valid(one) or not valid(other):
        refusal = 8
    if refusal:
        return ('refused', refusal), []
    points = shortest(points_in(one) + points_in(other))
    return ('points', len(points)), numbers_in(points)


def lookup(numbers, t):
    if not valid(numbers):
        return ('refused', 8)
    point = last_by(points_in(numbers), t)
    return ('none',) if point is None else ('found', point[1])


def sooner(one, other):
    """The winner of two points of the same weight: the second if it is earlier."""
    return 2 if other[0] < one[0] else 1


def to_first(one, other):
    """The same by the night desk's rule: always the first."""
    return 1


def winner(one, other, tie):
    """The winner of two points, of which one may be none: by weight, and of the same weight by the tie."""
    if one is None or other is None:
        return 2 if one is None else 1
    if one[1] != other[1]:
        return 2 if other[1] > one[1] else 1
    return tie(one, other)


def question(first, second, t, work, tie):
    """Refusal, which names no place, winner (R17), the kind of its records, and whether the work area is cleared."""
    found = []
    for data in (first, second):
        refusal, t0, jobs = judge(data)
        if refusal != ACCEPTED:
            return (refusal[0], 0, refusal[2]), 0, 0, False
        found.append(last_by(profile_from(t0, jobs), t))
    if work < WORK_AREA:
        return (10, 0, 0), 0, 0, False
    if found == [None, None]:
        return (11, 0, 0), 0, 0, True
    won = winner(*found, tie)
    return ACCEPTED, won, header((first, second)[won - 1])[2], True


# ---- packed plans (R37), legal and best ones (R38, R39), and our own written (R40)

def packed_plan(kept, starts):
    """The bytes of a plan: a 1 or a 0 for each job, and the starts of those kept."""
    text = ''.join(map(str, kept)).ljust(48, '0') + ''.join(bits(start, 18) for start in starts)
    return bytes_of(text + '0' * (-len(text) % 8))


def judge_sent(data, sent):
    """A packed order judged up to 9, and the plan sent for it by 14 and 15: refusal, t0, jobs, a 1 or a 0 for each, and the
    starts."""
    refusal, t0, jobs = judge(data)
    mask, rest = bits_in(sent)[:48], bits_in(sent)[48:]
    end = 18 * mask.count('1')  # of the starts
    refusal = then(refusal, len(sent) < 6 or len(sent) != (48 + end + 7) // 8, 14)
    refusal = then(refusal, '1' in mask[len(jobs):] + rest[end:], 15)
    starts = [signed(rest[at:at + 18]) for at in range(0, end, 18)] if refusal == ACCEPTED else []
    return refusal, t0, jobs, [int(bit) for bit in mask[:len(jobs)]], starts


def is_legal(t0, jobs, kept, starts):
    """Critical jobs kept, no start before t0 or the job's ready time, no finish past its deadline, and the rest observed."""
    runs = list(zip((job for job, stays in zip(jobs, kept) if stays), starts))
    finishes = [start + job[5] for job, start in runs]
    return (all(stays for job, stays in zip(jobs, kept) if job[2])
            and all(start >= t0 and start >= job[4] for job, start in runs)
            and all(finish <= job[6] for (job, _), finish in zip(runs, finishes))
            and all(start >= finish + REST for finish, (_, start) in zip(finishes, runs[1:])))


def is_best(t0, jobs, kept, starts):
    """Legal, and no feasible choice keeps more weight. A legal plan's own choice is feasible, so there is one."""
    if not is_legal(t0, jobs, kept, starts):
        return False
    return kept_weight(jobs, kept) >= kept_weight(jobs, best(t0, jobs))


def verdict(yes):
    return ('yes' if yes else 'no',)


def check_legal(data, sent):
    refusal, *plan_sent = judge_sent(data, sent)
    return verdict(is_legal(*plan_sent)) if refusal == ACCEPTED else refused(refusal)


def check_best(data, sent, work):
    """The answer, and whether the work area is cleared."""
    refusal, *plan_sent = judge_sent(data, sent)
    refusal = then(refusal, work < WORK_AREA, 10)
    if refusal != ACCEPTED:
        return refused(refusal), False
    return verdict(is_best(*plan_sent)), True


def write_plan(data, room, work):
    """The answer, the bytes written, and whether the work area is cleared."""
    refusal, t0, jobs = judge(data)
    judged = then(refusal, room < PLAN_ROOM, 10), t0, jobs
    answer, starts, cleared = plan_judged(judged, len(jobs), work)
    if answer[0] == 'refused':
        return answer, [], cleared
    kept = [int(start != LEFT_OUT) for start in starts]
    written = packed_plan(kept, [start for start in starts if start != LEFT_OUT])
    return ('bytes', len(written)), written, cleared


# ---- the week's sheet (R46, R47): a sheet is its 26 numbers

def one_order(data):
    """The sheet of one order, whatever planning says of it."""
    return list(one_sheet(tuple(data)))


@lru_cache(maxsize=1000)  # the same order often comes again
def one_sheet(data):
    answer, _, _ = plan(data, 48, WORK_AREA)
    figures = [1] + [0] * (FIGURES - 1)
    if answer[0] == 'refused':
        figures[answer[1]] = 1
    else:
        _, _, jobs_kept, kept, _, _, total = answer
        figures[20:25] = 1, weigh(judge(data)[2]), kept, jobs_kept, total + 1
    return figures


def join(one, other):
    """The sheet of two lists of orders, one behind the other."""
    sums = [a + b for a, b in zip(one[:24], other[:24])]
    return sums + ([other[24], one[0] + other[25]] if other[24] > one[24] else one[24:])


def sheet_of(orders):
    """The sheet of a list of orders: sums, and the first of the greatest totals."""
    sheets = [one_order(data) for data in orders]
    tops = [figures[24] for figures in sheets] or [0]
    top = max(tops)
    return [sum(figures[at] for figures in sheets) for at in range(24)] + [top, tops.index(top) if top else 0]


def ratio(upper, lower):
    return '%d/%d' % Fraction(upper, lower).as_integer_ratio() if lower else '-'


def sheet_lines(figures, cut):
    """The 28 lines of a sheet."""
    feasible_ones, offered, kept, _, top, place = figures[20:]
    return [str(figure) for figure in figures[:24]] + [
        '%d %d' % (top - 1, place) if feasible_ones else '-',
        ratio(feasible_ones, feasible_ones + figures[11]),
        ratio(offered - kept, offered),
        'cut' if cut else 'whole']


def text_of(figures, cut):
    return '\n'.join(sheet_lines(figures, cut)) + '\n'


# ---- streams (R48): whole, and in pieces as 29 numbers and 437 bytes

def parts(stream):
    """The whole entries of a stream, and whether it is cut."""
    entries, at = [], 0
    while at + 2 <= len(stream):
        end = at + 2 + 256 * stream[at] + stream[at + 1]
        if end > len(stream):
            break
        entries.append(stream[at + 2:end])
        at = end
    return entries, at < len(stream)


def fed(held, front, byte):
    """What is held of a stream, one byte later."""
    figures, (known, length, got) = held[:FIGURES], held[FIGURES:]
    if known < 2:
        known, length = known + 1, 256 * length + byte
    else:
        front = front[:got] + [byte] + front[got + 1:] if got < FRONT else front
        got += 1
    if known == 2 and got == length:
        figures, known, length, got = join(figures, one_order(front[:min(length, FRONT)])), 0, 0, 0
    return figures + [known, length, got], front


# ---- the calls of sheets (R25, R49): the answer, the lent buffers as they are left, and whether the work area is cleared

def is_sheet(figures):
    """Whether a sheet of at most 10,000 orders can have these figures, as far as R49 asks."""
    orders, refusals, (feasible_ones, offered, kept, jobs_kept, top, place) = figures[0], figures[1:20], figures[20:26]
    if orders > MOST_ORDERS or feasible_ones + sum(refusals) != orders:
        return False
    if offered > 300 * feasible_ones or kept > offered or jobs_kept > 48 * feasible_ones:
        return False
    return 1 <= top <= MOST_POINTS + 1 and place < orders if feasible_ones else top == place == 0


def is_held(held):
    """The same of what is held of a stream: nothing of a length, one byte of it, or all of it and less of the entry."""
    known, length, got = held[FIGURES:HELD]
    if known == 2:
        fits = length <= 65_535 and got < length
    else:
        fits = known in (0, 1) and length <= 255 * known and got == 0
    return is_sheet(held) and fits


def sheet_add(figures, data, work):
    if len(figures) < FIGURES or work < WORK_AREA:
        return ('refused', 10), figures, False
    if not is_sheet(figures) or figures[0] == MOST_ORDERS:
        return ('refused', 18), figures, False
    return ('counted',), join(figures[:FIGURES], one_order(data)) + figures[FIGURES:], True


def sheet_join(figures, more):
    """The answer and the first sheet; there is no work area."""
    if min(len(figures), len(more)) < FIGURES:
        return ('refused', 10), figures
    if not is_sheet(figures) or not is_sheet(more) or figures[0] + more[0] > MOST_ORDERS:
        return ('refused', 18), figures
    return ('counted',), join(figures[:FIGURES], more[:FIGURES]) + figures[FIGURES:]


def sheet_feed(held, front, piece, work):
    """The answer, the numbers and the bytes. A piece with too many entries is counted up to the first that is too many."""
    if len(held) < HELD or len(front) < FRONT or work < WORK_AREA:
        return ('refused', 10), held, front, False
    if not is_held(held):
        return ('refused', 18), held, front, False
    now, room = held[:HELD], front
    for byte in piece:
        now, room = fed(now, room, byte)
        if now[0] > MOST_ORDERS:
            return ('refused', 18), now + held[HELD:], room, True
    return ('counted',), now + held[HELD:], room, True


def sheet_text(figures, cut, room):
    """The answer and the bytes written."""
    if len(figures) < FIGURES or room < TEXT_ROOM:
        return ('refused', 10), []
    if not is_sheet(figures):
        return ('refused', 18), []
    text = text_of(figures[:FIGURES], cut)
    assert len(text) <= TEXT_ROOM, text
    return ('bytes', len(text)), list(text.encode('ascii'))


# ---- the programs

def report(data):
    """The text of the program `plan_order` (R31, R32)."""
    answer, starts, _ = plan(data, 48, WORK_AREA)
    if answer[0] == 'refused':
        return '%d %d %d\n' % answer[1:]
    lines = ['0 0 %d %d %d %d %d' % answer[2:]]
    for job, start in zip(judge(data)[2], starts):
        lines.append('%d %s' % (job[0], '-' if start == LEFT_OUT else start))
    return '\n'.join(lines) + '\n'


def week(stream):
    """The text of the program `week_sheet` (R50). Feeding the stream must come to the sheet of its entries."""
    entries, cut = parts(stream)
    answer, held, _, _ = sheet_feed([0] * HELD, [0] * FRONT, stream, WORK_AREA)
    if len(entries) > MOST_ORDERS:
        assert answer == ('refused', 18) and held[0] == MOST_ORDERS + 1
        return '18 0 0\n'
    figures = sheet_of(entries)
    assert is_sheet(figures) and held[:FIGURES] == figures and cut == (held[FIGURES] > 0)
    return text_of(figures, cut)
