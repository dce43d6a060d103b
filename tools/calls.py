# The list of calls, read from the specification's table (crates/mutator/specs/Table.antt and the files of families beside it).
#
# A call is a clause of `entry`, or of the function of a family that a clause of `entry` names, with a comment right above it:
#
#     -- 1 2 3 4: slot t becomes place i of the object in s
#     entry (Get t s i) = call (codes "Get") (Slot t ∷ Slot s ∷ Place i ∷ []) 0 (Err Nothing)
import glob
import os
import re
from collections import namedtuple

ROOT = os.path.dirname(os.path.dirname(os.path.abspath(__file__)))
SPECS = os.path.join(ROOT, 'crates', 'mutator', 'specs')

# A call's name, its numbers as (kind, name), what it does, and the codes that it may answer.
Call = namedtuple('Call', 'name numbers does codes')

# Comments and bodies may go on in further lines.
CLAUSE = re.compile(r'(?:^-- (?P<codes>\d[\d ]*): (?P<does>.*(?:\n-- .*)*)\n)?'
                    r'^(?P<of>\w+) (?P<pattern>\(.*?\)|\w+) =(?P<body>.*(?:\n +\S.*)*)$', re.M)
BODY = re.compile(r'call \(codes "(\w+)"\) (?:\[\]|\((.*?) ∷ \[\]\)) ')


class Unreadable(Exception):
    pass


def clauses():
    found = {}
    for path in sorted(glob.glob(os.path.join(SPECS, '*.antt'))):
        with open(path, encoding='utf-8') as text:
            for m in CLAUSE.finditer(text.read()):
                found.setdefault(m['of'], []).append(m)
    return found


def read(function, found):
    for m in found.get(function, ()):
        text = ' '.join(m['body'].split())
        body, family = BODY.match(text), text.split()[0]
        if not body:
            if family not in found:
                raise Unreadable(f'{function} {m["pattern"]}: neither a call nor a family of calls')
            yield from read(family, found)
        elif not m['codes']:
            raise Unreadable(f'{function} {m["pattern"]}: no comment with its codes and what it does is right above it')
        else:
            numbers = [tuple(number.split()) for number in body[2].split(' ∷ ')] if body[2] else []
            yield Call(body[1], numbers, m['does'].replace('\n--', ''), [int(code) for code in m['codes'].split()])


# The calls in the order of the table.
def calls():
    listed = list(read('entry', clauses()))
    if not listed:
        raise Unreadable('crates/mutator/specs/Table.antt: no clause of `entry`')
    return listed


# The name of the function of the library: TryRead is pagzimul_try_read.
def exported(call):
    return 'pagzimul_' + re.sub(r'(?<!^)(?=[A-Z])', '_', call.name).lower()
