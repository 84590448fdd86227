#!/usr/bin/env python3
"""Prints the definitions that the contracts of the public calls rest on, in reading order, with their lines (without imports,
comments and blank lines), from the project's root:  tools/definitions.py

Ends with 1 if a file is missing, if its header does not say "Definitions only.", if it holds a law, or if it imports a file of
the project's specs that is not listed: the list is all there is to believe, beside the types that the code declares. A file
that the contract of an inner function names, listed or not, must say "Definitions only." too."""
import glob
import os
import re
import sys

PARTS = [
    ('The theory: what a plan and a profile are', '''
        seconds Limits, seconds Ranges, order Job, order Choice, order Halves, profile Profile, plan Plan,
        legal Legal'''),
    ('The calls: bytes, refusals, answers', '''
        refusals Numbers, seconds Twos, heat Heat, heat Answer,
        packed Layout, packed Places, packed Packed, packed Judge, packed Refusals,
        unpack Answer, pack Answer, multiples Multiples, frames Frames, framing Answer, fields Fields, reader Reading, reader_struct Standing,
        profiles Numbers, profiles Answer, point_records Records, better Answer,
        area Area, filling After, planner Calls, halves Calls, extending Calls, ties Winning, choosing Choosing, openings Answer,
        packed_plan Plan, plan_writer Calls, checking Calls, best_plan Calls,
        sheet Sheet, sheet Answered, adding Calls, streams Entries, streams Stream, feeding Calls, fractions Fractions,
        packed_answers Numbers, plan_answers Numbers, opening_answers Numbers, verdict_answers Numbers, sheet_answers Numbers,
        text Decimal, report Report, sheet_text SheetText, week_report WeekText'''),
]
IMPORT = re.compile(r'\s*(?:unfoldable )?(?:pub |ghost )?use Rattle\.(?!std\.)(\w+)\.(?:specs|proofs)\.(\w+)\.')
LAW = re.compile(r'(pub )?\S+ : |.*\b(refl|omega|rw|cc|search|grind|simp|unfolding)\b')


def names_of(listed):
    return [tuple(name.split()) for name in listed.replace('\n', ' ').split(',')]


def only_definitions(text):
    return 'Definitions only.' in re.match(r'(--.*\n)*', text).group().replace('\n-- ', ' ')


def named_by_contracts(root):
    """The files that a contract of any function names."""
    for path in glob.glob(os.path.join(root, 'crates/*/src/*.rt')):
        with open(path, encoding='utf-8') as f:
            for found in filter(None, map(IMPORT.match, f)):
                if found.group(2) != 'declared':
                    paths = ['crates/%s/%s/%s.antt' % (found.group(1), kind, found.group(2)) for kind in ('specs', 'proofs')]
                    yield next((path for path in paths if os.path.exists(os.path.join(root, path))), paths[0])


def read(root, crate, module, known, faults):
    """A file and its lines of definitions; what is wrong with it is added to the faults."""
    path = 'crates/%s/specs/%s.antt' % (crate, module)
    if not os.path.exists(os.path.join(root, path)):
        faults.append(path + ': missing')
        return path, 0
    with open(os.path.join(root, path), encoding='utf-8') as f:
        text = f.read()
    if not only_definitions(text):
        faults.append(path + ': its header does not say "Definitions only."')
    lines = [line for line in text.split('\n') if line.strip() and not line.lstrip().startswith('--')]
    for found in filter(None, map(IMPORT.match, lines)):
        if found.group(2) != 'declared' and found.groups() not in known:
            faults.append('%s: imports %s %s, which is not listed' % ((path,) + found.groups()))
    lines = [line for line in lines if not re.match(r'(unfoldable )?(pub )?use ', line)]
    faults += ['%s: no definition: %s' % (path, line) for line in lines if LAW.match(line)]
    return path, len(lines)


root = os.path.dirname(os.path.dirname(os.path.abspath(__file__)))
known, faults, total = {name for _, listed in PARTS for name in names_of(listed)}, [], 0
for title, listed in PARTS:
    counted = [read(root, crate, module, known, faults) for crate, module in names_of(listed)]
    total += sum(count for _, count in counted)
    for path, count in [(title, '')] + counted + [('together', sum(count for _, count in counted))]:
        print('%5s  %s' % (count, path))
for path in sorted(set(named_by_contracts(root))):
    with open(os.path.join(root, path), encoding='utf-8') as f:
        if not only_definitions(f.read()):
            faults.append(path + ': a contract names it, and its header does not say "Definitions only."')
print('%5d  all' % total)
sys.exit('\n'.join(faults) if faults else 0)
