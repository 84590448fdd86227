"""The cases of crates/edges/stdin and of crates/sheet_edges/stdin, whose first lines say how they are written, answered by the
rules in the form of the programs: the case's name, the answer, and behind bars every lent buffer as it is left."""
import re

import rules

# What the buffers hold before a call: numbers to be written to, the work area, and bytes.
MARK, WORK_MARK, BYTE_MARK = 7_777, -77_777, 170
GREATEST = 2 ** 64 - 1


def numbers_in(part):
    return [int(figure) for figure in re.findall(r'-?\d+', part)]


def order_in(part):
    """An order's bytes, told as such or as t0 and jobs."""
    values = numbers_in(part)
    if part.startswith('bytes'):
        return values
    answer, data = rules.pack(values[0], values[1:], rules.WORK_AREA)
    assert answer[0] == 'bytes', part
    return data


def profile_in(part):
    """A profile's numbers, told as points or as a stair."""
    values = numbers_in(part)
    if part.startswith('points'):
        return values
    first, apart, many = values
    return [number for place in range(many) for number in (first + apart * place, place)]


def buffer(values):
    """A bar and the numbers; ten or more alike are told once, with how many there are."""
    text, at = ' |' if values else '', 0
    while at < len(values):
        end = at
        while end < len(values) and values[end] == values[at]:
            end += 1
        alike = end - at >= 10
        text += ' %d*%d' % (values[at], end - at) if alike else ' %d' % values[at]
        at = end if alike else at + 1
    return text


def plain(values):
    return ''.join(' %d' % value for value in values)


def written(values, mark, room):
    return values + [mark] * (room - len(values))


def area(work, cleared):
    return buffer(written([0] * rules.WORK_AREA if cleared else [], WORK_MARK, work))


def told(answer):
    """The word of an answer's kind, where the program writes one, and its figures."""
    kind = answer[0]
    return (' ' + kind if kind in ('refused', 'made', 'none', 'end', 'job', 'yes', 'no', 'counted') else '') + plain(answer[1:])


class Case:
    """A case: its name, the figures before the first bar by their words, and the parts behind bars."""

    def __init__(self, line):
        self.name, told_of = line.split(':', 1)
        head, *self.parts = [part.strip() for part in told_of.split('|')]
        self.figures = {word: int(figure) for word, figure in re.findall(r'(\w+) (-?\d+)', head)}
        self.room, self.work, self.at = (self.figures.get(word, 0) for word in ('room', 'work', 'at'))

    def place(self, word):
        """A place or a count: below 0 it is the greatest there is."""
        return GREATEST if self.figures[word] < 0 else self.figures[word]


def unpack(case):
    answer, numbers = rules.unpack(numbers_in(case.parts[0]), case.room)
    return told(answer) + buffer(written(numbers, MARK, case.room))


def pack(case):
    answer, data = rules.pack(case.figures['free'], numbers_in(case.parts[0]), case.room)
    return told(answer) + ' |' + plain(written(data, BYTE_MARK, case.room))


def frame(case):
    answer, data = rules.frame(numbers_in(case.parts[0]), case.room)
    return told(answer) + ' |' + plain(written(data, BYTE_MARK, case.room))


def heat(case):
    seconds = rules.heat(case.figures['byte'])
    return ' refused 12' if seconds is None else ' %d' % seconds


def planned(case, call):
    answer, starts, cleared = call(order_in(case.parts[0]), case.room, case.work)
    return told(answer) + buffer(written(starts, MARK, case.room)) + area(case.work, cleared)


def plan(case):
    return planned(case, rules.plan)


def plan_halves(case):
    return planned(case, rules.plan_halves)


def legal(case):
    return told(rules.check_legal(order_in(case.parts[0]), numbers_in(case.parts[1])))


def legal_cut(case):
    """The plan cut to each length, from none of its bytes to all."""
    order, sent = order_in(case.parts[0]), numbers_in(case.parts[1])
    return ''.join(told(rules.check_legal(order, sent[:many])) for many in range(len(sent) + 1))


def best(case):
    answer, cleared = rules.check_best(order_in(case.parts[0]), numbers_in(case.parts[1]), case.work)
    return told(answer) + area(case.work, cleared)


def write_plan(case):
    answer, data, cleared = rules.write_plan(order_in(case.parts[0]), case.room, case.work)
    return told(answer) + ' |' + plain(written(data, BYTE_MARK, case.room)) + area(case.work, cleared)


def report(case):
    return '\n' + rules.report(order_in(case.parts[0]))


def extend(case):
    order, profile = order_in(case.parts[0]), profile_in(case.parts[1])
    answer, numbers, cleared = rules.extend(profile, order, case.room, case.work)
    return told(answer) + buffer(written(numbers, MARK, case.room)) + area(case.work, cleared)


def better(case):
    answer, numbers = rules.better(profile_in(case.parts[0]), profile_in(case.parts[1]), case.room)
    return told(answer) + buffer(written(numbers, MARK, case.room))


def lookup(case):
    return told(rules.lookup(profile_in(case.parts[0]), case.at))


def records(case):
    """Up to eight records are passed; those behind the ones that are told are no points."""
    numbers = written(profile_in(case.parts[0]), GREATEST, 16)
    return told(rules.lookup(numbers[:2 * min(8, case.place('of'))], case.at))


def asked(case, tie):
    first, second = order_in(case.parts[0]), order_in(case.parts[1])
    return rules.question(first, second, case.at, case.work, tie) + (first, second)


def question(case, tie=rules.sooner):
    refusal, winner, kind, cleared, _, _ = asked(case, tie)
    number, _, field = refusal
    return (' refused %d %d' % (number, field) if number else ' %d %d' % (winner, kind)) + area(case.work, cleared)


def choose(case, tie=rules.sooner):
    _, winner, _, cleared, first, second = asked(case, tie)
    part = (first, second)[winner - 1][4:] if winner else []
    return ' part %d' % len(part) + plain(part) + area(case.work, cleared)


def sheet_add(case):
    """One order more: behind bars the sheet's numbers and the order."""
    answer, figures, cleared = rules.sheet_add(numbers_in(case.parts[0]), order_in(case.parts[1]), case.work)
    return told(answer) + ' |' + plain(figures) + area(case.work, cleared)


def sheet_join(case):
    answer, figures = rules.sheet_join(numbers_in(case.parts[0]), numbers_in(case.parts[1]))
    return told(answer) + ' |' + plain(figures)


def sheet_feed(case):
    """Behind bars the numbers that are held and the pieces, which are fed one behind the other."""
    held, front = numbers_in(case.parts[0]), [BYTE_MARK] * case.room
    said, cleared = '', False
    assert len(case.parts) == case.figures['parts'], case.name
    for piece in case.parts[1:]:
        answer, held, front, clears = rules.sheet_feed(held, front, numbers_in(piece), case.work)
        said, cleared = said + told(answer), cleared or clears
    return said + ' |' + plain(held) + buffer(front) + area(case.work, cleared)


def sheet_text(case):
    figures = numbers_in(case.parts[0])
    answer, data = rules.sheet_text(figures, case.figures['cut'], case.room)
    return told(answer) + ' |' + plain(figures) + buffer(written(data, BYTE_MARK, case.room))


def opened(data):
    refusal = rules.judge_header(data)
    return ' refused %d' % refusal if refusal else ' %d' % rules.header(data)[0]


def stepped(data, place):
    answer, after = rules.step(data, place)
    return told(answer) + ' %d' % after


def read(case):
    """The reader struct, opened and stepped: over refused bytes it stands over none."""
    data = order_in(case.parts[0])
    return opened(data) + stepped([] if rules.judge_header(data) else data, case.place('at'))


CALLS = {
    'unpack': unpack, 'pack': pack, 'frame': frame, 'heat': heat, 'plan': plan, 'plan_halves': plan_halves,
    'legal': legal, 'legal_cut': legal_cut, 'best': best, 'write_plan': write_plan, 'report': report, 'extend': extend,
    'better': better, 'lookup': lookup, 'records': records, 'question': question, 'choose': choose,
    'question_first': lambda case: question(case, rules.to_first),
    'choose_first': lambda case: choose(case, rules.to_first),
    'read': read, 'open': lambda case: opened(order_in(case.parts[0])),
    'sheet_add': sheet_add, 'sheet_join': sheet_join, 'sheet_feed': sheet_feed, 'sheet_text': sheet_text,
    'step': lambda case: stepped(order_in(case.parts[0]), case.place('at')),
}


def answers(text):
    """What `edges` or `sheet_edges` prints for its whole input."""
    cases = [Case(line) for line in text.split('\n') if line and not line.startswith('#')]
    return ''.join('%s:%s\n' % (case.name, CALLS[case.name.split()[0]](case)) for case in cases)
