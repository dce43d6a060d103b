# Draws the ratios of seconds as grouped bars, in SVG.
import math

from contestants import MANAGER, PEERS, WORKLOADS

WIDTH, HEIGHT = 960, 500
LEFT, RIGHT, TOP, BOTTOM = 80, 24, 112, 64
FONT = 'font-family="Helvetica, Arial, sans-serif"'
INK, GRID, PAPER, LINE = '#222222', '#dddddd', '#ffffff', '#c0392b'
TITLE_SIZE, TEXT_SIZE, SMALL_SIZE = 20, 14, 12
GROUP_FILL = 0.8
LEGEND_STEP, LEGEND_BOX = 150, 14
TITLE_Y, SUBTITLE_Y, LEGEND_Y, AXIS_TITLE_X = 30, 52, 72, 24
GAP = 6


def text(x, y, words, size=TEXT_SIZE, anchor='middle', extra=''):
    words = words.replace('&', '&amp;').replace('<', '&lt;')
    return f'<text x="{x:.1f}" y="{y:.1f}" font-size="{size}" text-anchor="{anchor}" fill="{INK}" {FONT} {extra}>{words}</text>'


def line(x1, y1, x2, y2, color, width):
    return f'<line x1="{x1:.1f}" y1="{y1:.1f}" x2="{x2:.1f}" y2="{y2:.1f}" stroke="{color}" stroke-width="{width}"/>'


def rectangle(x, y, width, height, color):
    return f'<rect x="{x:.1f}" y="{y:.1f}" width="{width:.1f}" height="{height:.1f}" fill="{color}"/>'


# The axis: powers of two from below the least ratio to above the largest.
class Axis:
    def __init__(self, ratios):
        self.low = min(-1, math.floor(math.log2(min(ratios))))
        self.high = max(1, math.ceil(math.log2(max(ratios))))

    def y(self, ratio):
        share = (math.log2(ratio) - self.low) / (self.high - self.low)
        return HEIGHT - BOTTOM - share * (HEIGHT - BOTTOM - TOP)

    def drawn(self):
        for power in range(self.low, self.high + 1):
            y = self.y(2 ** power)
            yield line(LEFT, y, WIDTH - RIGHT, y, GRID, 1)
            yield text(LEFT - GAP, y + TEXT_SIZE / 3, f'{2.0 ** power:g}', anchor='end')
        middle = (TOP + HEIGHT - BOTTOM) / 2
        turned = f'transform="rotate(-90 {AXIS_TITLE_X} {middle:.1f})"'
        yield text(AXIS_TITLE_X, middle, f'seconds / seconds of {MANAGER.title}', extra=turned)


# One workload: a bar from the line of 1 for each contestant, with its ratio at its end.
def group(figures, axis, bars, workload, x, width):
    bar = width * GROUP_FILL / len(bars)
    left = x + width * (1 - GROUP_FILL) / 2
    for i, contestant in enumerate(bars):
        ratio = figures.ratio(contestant, workload)
        middle = left + (i + 0.5) * bar
        if ratio is None:
            yield text(middle, axis.y(1) - GAP, figures.reason(contestant, workload), SMALL_SIZE)
            continue
        top, bottom = min(axis.y(ratio), axis.y(1)), max(axis.y(ratio), axis.y(1))
        yield rectangle(left + i * bar + 1, top, bar - 2, bottom - top, contestant.color)
        yield text(middle, top - GAP if ratio >= 1 else bottom + SMALL_SIZE + GAP / 2, f'{ratio:.2f}', SMALL_SIZE)
    yield text(x + width / 2, HEIGHT - BOTTOM + BOTTOM / 2, workload.title)


def legend(bars):
    for i, contestant in enumerate(bars):
        x = LEFT + i * LEGEND_STEP
        yield rectangle(x, LEGEND_Y, LEGEND_BOX, LEGEND_BOX, contestant.color)
        yield text(x + LEGEND_BOX + GAP, LEGEND_Y + SMALL_SIZE, contestant.title, anchor='start')


def svg(figures):
    bars = [figures.twin(), *PEERS]
    ratios = [figures.ratio(c, w) for c in bars for w in WORKLOADS if figures.ratio(c, w) is not None]
    axis = Axis(ratios)
    width = (WIDTH - LEFT - RIGHT) / len(WORKLOADS)
    parts = [
        f'<svg xmlns="http://www.w3.org/2000/svg" width="{WIDTH}" height="{HEIGHT}" viewBox="0 0 {WIDTH} {HEIGHT}">',
        rectangle(0, 0, WIDTH, HEIGHT, PAPER),
        text(LEFT, TITLE_Y, f'Seconds for the same work, {MANAGER.title} = 1', TITLE_SIZE, 'start'),
        text(LEFT, SUBTITLE_Y, f'Above the line slower than {MANAGER.title}, below it faster; a scale of doublings.', anchor='start'),
        *legend(bars),
        *axis.drawn(),
    ]
    for i, workload in enumerate(WORKLOADS):
        parts += group(figures, axis, bars, workload, LEFT + i * width, width)
    parts += [line(LEFT, axis.y(1), WIDTH - RIGHT, axis.y(1), LINE, 2), '</svg>', '']
    return '\n'.join(parts)
