# Who takes part, and on what: the names, the titles, and how each is built.
from collections import namedtuple

# `header` is its adapter in managers/, `level` the optimization of the object it is linked with, `in_slots` whether it
# has the manager's own interface, and `color` its bars'.
Contestant = namedtuple('Contestant', 'name title header defines links level in_slots color')
Workload = namedtuple('Workload', 'name title')

MANAGER = Contestant('manager', 'Pagzimul', 'slots.h', [], [], None, True, '#333333')
INLINE = Contestant('inline', 'with inline calls', 'slots.h', ['-DINLINE'], [], None, True, '#7f7f7f')
TWINS = [
    Contestant('twin-o2', 'C twin -O2', 'slots.h', ['-DTWIN'], [], '-O2', True, '#1f77b4'),
    Contestant('twin-o3', 'C twin -O3', 'slots.h', ['-DTWIN'], [], '-O3', True, '#1f77b4'),
]
PEERS = [
    Contestant('boehm', 'Boehm', 'boehm.h', [], ['-lgc'], None, False, '#d9822b'),
    Contestant('lua', 'Lua 5.4', 'lua.h', [], ['-llua5.4'], None, False, '#3a923a'),
    Contestant('malloc', 'malloc/free', 'malloc.h', [], [], None, False, '#8a6bb8'),
]
CONTESTANTS = [MANAGER, INLINE, *TWINS, *PEERS]
# On small heaps, beside Boehm's collector and Lua's; what it links with is known once it is built.
MICROPYTHON = Contestant('micropython', 'MicroPython', 'micropython.h', [], [], None, False, '#b8497a')
COLLECTORS = [peer for peer in PEERS if peer.name != 'malloc']

WORKLOADS = [
    Workload('trees', 'binary trees'),
    Workload('list', 'long list rebuilt'),
    Workload('queue', 'queue with churn'),
    Workload('array', 'large array'),
    Workload('graph', 'graph clusters'),
    Workload('nearly-full', 'nearly full'),
]

SMALL_KIBIBYTES = [16, 64, 256, 1024]
SMALL_WORKLOADS = [
    Workload('small-quarter', 'a quarter held'),
    Workload('small-half', 'half held'),
]

# What is collected, again and again, and how many words it has.
SHAPES = [
    Workload('half', 'Half is reached, and all of it moves'),
    Workload('all', 'All is reached, and nothing moves'),
]
COLLECTED_WORDS = [10 ** power for power in range(3, 8)]
