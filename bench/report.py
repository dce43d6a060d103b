# The figures that the contestants' runs come to, and the tables of them in Markdown.
import math
import statistics
import subprocess

from contestants import CONTESTANTS, INLINE, MANAGER, PEERS, SHAPES, SMALL_WORKLOADS, TWINS, WORKLOADS

NANOSECONDS_A_SECOND = 1e9
NANOSECONDS_A_MILLISECOND = 1e6
MICROSECONDS_A_MILLISECOND = 1e3
PICOSECONDS_A_NANOSECOND = 1e3
MEBIBYTE = 1 << 20
UNFIT, FULL = 'n/a', 'full'


class Figures:
    def __init__(self, runs, pauses, fills=None):
        self.runs, self.pauses, self.fills = runs, pauses, fills
        self.limit = next(iter(runs.values()))[0]['limit']

    # The best of the runs, in seconds; None where the contestant could not do the work.
    def seconds(self, contestant, workload):
        seen = [run['nanoseconds'] for run in self.runs[contestant.name, workload.name] if 'nanoseconds' in run]
        return min(seen) / NANOSECONDS_A_SECOND if seen else None

    # Its seconds for one of the manager's.
    def ratio(self, contestant, workload):
        theirs = self.seconds(contestant, workload)
        return None if theirs is None else theirs / self.seconds(MANAGER, workload)

    # Why there are no seconds.
    def reason(self, contestant, workload):
        return UNFIT if 'unfit' in self.runs[contestant.name, workload.name][0] else FULL

    def pause(self, contestant, workload):
        seen = [run['pause'] for run in self.pauses[contestant.name, workload.name]]
        return statistics.median(seen) / NANOSECONDS_A_MILLISECOND

    def peak(self, contestant, workload):
        return max(run['peak'] for run in self.runs[contestant.name, workload.name]) / MEBIBYTE

    def fullness(self, contestant, fill):
        run = self.fills[contestant.name, fill][0]
        return 100 * run['payload'] / run['limit']

    # The geometric mean of the ratios, over the workloads that it could do.
    def mean_ratio(self, contestant):
        ratios = [self.ratio(contestant, workload) for workload in WORKLOADS]
        logs = [math.log(ratio) for ratio in ratios if ratio is not None]
        return math.exp(sum(logs) / len(logs))

    # The twin to be measured by: the faster on the whole.
    def twin(self):
        return min(TWINS, key=self.mean_ratio)


def row(cells):
    return '| ' + ' | '.join(cells) + ' |'


def table(head, rows):
    return '\n'.join([row(head), row(['---'] * len(head)), *map(row, rows)])


def seconds_table(figures):
    others = [INLINE, *TWINS, *PEERS]
    twin = figures.twin()

    def cells(workload):
        ratios = [figures.ratio(contestant, workload) for contestant in others]
        shown = [figures.reason(c, workload) if r is None else f'{r:.2f}' for c, r in zip(others, ratios)]
        return [workload.title, f'{figures.seconds(MANAGER, workload):.3f}', *shown, f'{1 / figures.ratio(twin, workload):.2f}']

    means = ['geometric mean', '', *(f'{figures.mean_ratio(c):.2f}' for c in others), f'{1 / figures.mean_ratio(twin):.2f}']
    head = ['Workload', f'{MANAGER.title}, seconds', *(c.title for c in others), f'{MANAGER.title} / {twin.title}']
    return table(head, [*map(cells, WORKLOADS), means])


# One cell a contestant and workload, of a measure that exists where the work was done.
def grid(figures, measure):
    def cell(contestant, workload):
        if figures.seconds(contestant, workload) is None:
            return figures.reason(contestant, workload)
        return measure(contestant, workload)

    rows = [[w.title, *(cell(c, w) for c in CONTESTANTS)] for w in WORKLOADS]
    return table(['Workload', *(c.title for c in CONTESTANTS)], rows)


def fullness_table(figures):
    kinds = [('1 place and 2 words', 'fill-small'), ('1 place and 31 words', 'fill-large')]
    rows = [[title, *(f'{figures.fullness(c, fill):.1f} %' for c in CONTESTANTS)] for title, fill in kinds]
    return table(['Objects of', *(c.title for c in CONTESTANTS)], rows)


def compiler():
    return subprocess.run(['gcc', '--version'], capture_output=True, text=True).stdout.splitlines()[0]


def tables(figures, extent):
    twin = figures.twin()
    heading = f'The limit of every heap is {figures.limit // MEBIBYTE} MiB. Contestants were built by {compiler()}.'
    if extent.quick:
        heading += ' This was a quick look: a part of each workload, once.'
    return [
        heading,
        f'Seconds of processor time, best of {extent.repeats}; for the others as a ratio to {MANAGER.title} in the same run, so that '
        f'below 1 is faster than it. The last column is {MANAGER.title} by the faster twin, {twin.title}.',
        seconds_table(figures),
        f'Longest single allocation (or free) in milliseconds, the median of {extent.pause_repeats} runs:',
        grid(figures, lambda c, w: f'{figures.pause(c, w):.2f}'),
        'Peak memory in MiB: resident at most, beyond what was resident before the heap was made:',
        grid(figures, lambda c, w: f'{figures.peak(c, w):.1f}'),
        'How full the heap can get: payload (places and words, 8 bytes each) held when the limit is met, in per cent of it:',
        fullness_table(figures),
    ]


# One row a size of heap and workload, one cell a contestant; what is not there says why.
def small_table(small, contestants, head, measure):
    def cell(figures, contestant, workload):
        if figures.seconds(contestant, workload) is None:
            return figures.reason(contestant, workload)
        return measure(figures, contestant, workload)

    rows = [[f'{kibibytes} KiB, {w.title}', *(cell(figures, c, w) for c in contestants)]
            for w in SMALL_WORKLOADS for kibibytes, figures in small.items()]
    return table(['Heap', head, *(c.title for c in contestants[1:])], rows)


def small_tables(small, contestants, version, extent):
    def seconds(figures, c, w):
        return f'{figures.seconds(c, w):.3f}' if c is MANAGER else f'{figures.ratio(c, w):.2f}'

    from_where = f' MicroPython is {version}.' if version else ' MicroPython was left out, since its sources could not be had.'
    return [
        f'Small heaps, of which a quarter and half are held.{from_where} Seconds of processor time, best of {extent.repeats}; for the '
        f'others as a ratio to {MANAGER.title}:',
        small_table(small, contestants, f'{MANAGER.title}, seconds', seconds),
        f'Longest single allocation on these heaps in microseconds, the median of {extent.pause_repeats} runs:',
        small_table(small, contestants, MANAGER.title, lambda f, c, w: f'{f.pause(c, w) * MICROSECONDS_A_MILLISECOND:.1f}'),
    ]


# What one collection and one copy took, in nanoseconds a word of the heap.
def collecting_row(words, runs, shape):
    def best(contestant, name):
        return min(run[name] for run in runs[contestant.name, shape.name]) / words

    copy = min(best(c, 'copy') for c in (MANAGER, *TWINS)) / PICOSECONDS_A_NANOSECOND
    took = [best(c, 'collect') for c in (MANAGER, *TWINS)]
    by_twin, by_copy = took[0] / min(took[1:]), took[0] / copy
    return [f'{words:,}', *(f'{t:.2f}' for t in took), f'{copy:.2f}', f'{by_twin:.2f}', f'{by_copy:.1f}']


def collecting_tables(collecting, extent):
    head = ['Words', MANAGER.title, *(twin.title for twin in TWINS), 'memcpy', f'{MANAGER.title} / twin', f'{MANAGER.title} / memcpy']
    parts = [f'One collection of a heap without a free word, in nanoseconds a word of it, the fastest of many in '
             f'{extent.pause_repeats} processes; beside them memcpy of all its words, and by how much the collection is slower than the faster twin and than memcpy.']
    for shape in SHAPES:
        rows = [collecting_row(words, runs, shape) for words, runs in collecting.items()]
        parts += [f'{shape.title}:', table(head, rows)]
    return parts
