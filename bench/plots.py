"""The plots of bench/figures, as SVG: lines over the number of threads, and the ratios to plain code."""
import html
import math

COLOURS = ('#0969da', '#bc4c00', '#1a7f37', '#8250df', '#9a6700', '#bf3989')
STYLE = ("<style>.sheet{fill:#fff}text{fill:#1f2328;font:12px system-ui,'DejaVu Sans',sans-serif}.s{fill:#59636e;font-size:11px}"
         '.g{stroke:#d1d9e0}.one{stroke:#59636e;stroke-dasharray:4 3}'
         '@media screen and (prefers-color-scheme:dark){.sheet{fill:#0d1117}text{fill:#e6edf3}.s{fill:#b1bac4}.g{stroke:#30363d}}'
         '</style>')


def svg(width, height, title, parts):
    head = (f"<svg xmlns='http://www.w3.org/2000/svg' width='{width}' height='{height}' viewBox='0 0 {width} {height}'>"
            f'<title>{html.escape(title)}</title>{STYLE}'
            f"<rect class='sheet' width='{width}' height='{height}'/><text x='16' y='24'>{html.escape(title)}</text>")
    return '\n'.join([head, *parts, '</svg>']) + '\n'


def panel(left, top, title, series, most, numbers=(1, 2, 4, 8)):
    """Lines over these numbers, of nanoseconds from 20 to `most`; both on a logarithmic scale."""
    width, height, least = 210, 180, 20

    def x_of(number):
        return left + width * math.log(number) / math.log(numbers[-1])

    def y_of(nanoseconds):
        return top + height * (1 - math.log(max(nanoseconds, least) / least) / math.log(most / least))
    parts = [f"<text class='s' x='{left}' y='{top - 8}'>{html.escape(title)}</text>"]
    tick = least
    while tick <= most:
        parts.append(f"<path class='g' d='M{left} {y_of(tick):.1f}h{width}'/>"
                     f"<text class='s' x='{left - 6}' y='{y_of(tick) + 4:.1f}' text-anchor='end'>{tick}</text>")
        tick *= 5 if str(tick)[0] == '2' else 2
    for number in numbers:
        parts.append(f"<text class='s' x='{x_of(number):.1f}' y='{top + height + 16}' text-anchor='middle'>{short(number)}</text>")
    for (name, points), colour in zip(series.items(), COLOURS):
        path = 'M' + 'L'.join(f'{x_of(number):.1f} {y_of(time):.1f}' for number, time in points)
        parts.append(f"<path d='{path}' fill='none' stroke='{colour}' stroke-width='2'><title>{html.escape(name)}</title></path>")
    return parts


def short(number):
    """A number in a few letters: large ones in thousands of 1,024."""
    return str(number) if number < 1024 else f'{round(number / 1024)}k'


def legend(left, top, names, first=0, apart=190):
    """The names of lines, which have the colours from `first` on."""
    parts = []
    for at, (name, colour) in enumerate(zip(names, COLOURS[first:])):
        x = left + apart * at
        parts.append(f"<path d='M{x} {top}h22' stroke='{colour}' stroke-width='2'/>"
                     f"<text class='s' x='{x + 28}' y='{top + 4}'>{html.escape(name)}</text>")
    return parts


def ceiling(times):
    """The least of 20, 200, 2,000 .. that isn't below these."""
    most = 20
    while most < max(times):
        most *= 10
    return most


def sizes(rows, calls):
    """A panel for each kind of list: what these calls take by the number of listed IRPs."""
    numbers = sorted({row['listed'] for row in rows})
    most = ceiling([row['own'] for row in rows if row['call'] in calls])
    names = list(calls.values())
    parts = [part for at in (0, 2, 4) for part in legend(24, 44 + 8 * at, names[at:at + 2], at, 300)]
    for at, listing in enumerate(('chains', 'vector')):
        series = {name: [(row['listed'], row['own']) for row in rows if (row['list'], row['call']) == (listing, call)]
                  for call, name in calls.items()}
        parts += panel(80 + 320 * at, 112, listing, series, most, numbers)
    parts.append("<text class='s' x='24' y='328'>nanoseconds of a call, by the number of listed IRPs</text>")
    return svg(640, 344, 'The cost by size', parts)


def scaling(rows):
    """A panel for each length of the list: its time by threads, over both lists, for one file object or many."""
    names = {('vector', 'shared'): 'vector, one file object', ('chains', 'shared'): 'chains, one file object',
             ('vector', 'owned'): 'vector, one for each thread', ('chains', 'owned'): 'chains, one for each thread'}
    lengths = sorted({row['listed'] for row in rows})
    most = ceiling([row['own'] for row in rows])
    parts = legend(24, 48, names.values())
    for at, listed in enumerate(lengths):
        series = {name: [(row['threads'], row['own']) for row in rows
                         if (row['list'], row['files'], row['listed']) == (*key, listed)] for key, name in names.items()}
        parts += panel(60 + 270 * at, 96, f'{listed} IRPs are listed', series, most)
    parts.append("<text class='s' x='24' y='312'>nanoseconds of an insert, a removal, a completion and a reuse, by threads</text>")
    return svg(60 + 270 * len(lengths), 328, 'How the cost grows', parts)


def ratios(queue, c):
    """A mark for each comparison, at its ratio on a logarithmic scale, with a line as long as its spread and the ratio in
    numbers; and a ring at the ratio to the plain queue with counts and backoff."""
    rows = ([(f"{row['kind']}, {row['threads']} threads", row) for row in queue]
            + [(f"from C: {row['kind']}, {row['lock']}, {row['threads']} threads", row) for row in c])
    ticks = (0.8, 1, 1.25, 2, 4, 8)
    least, most, left, width = ticks[0], ticks[-1], 250, 480

    def x_of(ratio):
        return left + width * math.log(min(max(ratio, least), most) / least) / math.log(most / least)
    height = 66 + 18 * len(rows) + 24
    parts = [f"<path class='one' d='M{x_of(1):.1f} 56V{height - 30}'/>"]
    for tick in ticks:
        parts.append(f"<text class='s' x='{x_of(tick):.1f}' y='50' text-anchor='middle'>{tick}</text>")
    for at, (name, row) in enumerate(rows):
        y, half = 70 + 18 * at, row['ratio'] * row['spread'] / 200
        colour = COLOURS[2] if row['ratio'] >= 1 else COLOURS[1]
        parts.append(f"<text class='s' x='{left - 12}' y='{y + 4}' text-anchor='end'>{html.escape(name)}</text>"
                     f"<path d='M{x_of(row['ratio'] - half):.1f} {y}H{x_of(row['ratio'] + half):.1f}' stroke='{colour}' stroke-width='2'/>"
                     f"<circle cx='{x_of(row['ratio']):.1f}' cy='{y}' r='4' fill='{colour}'/>"
                     f"<text class='s' x='{left + width + 14}' y='{y + 4}'>{row['ratio']:.2f}</text>")
        if 'backoff' in row:
            parts.append(f"<circle cx='{x_of(row['backoff']['ratio']):.1f}' cy='{y}' r='4' fill='none' stroke='{COLOURS[3]}'/>")
    parts.append(f"<text class='s' x='24' y='{height - 8}'>the plain queue's time over the proved one's: above 1 the proved one is faster; the lines go from quartile to quartile;</text>"
                 f"<text class='s' x='24' y='{height + 8}'>a ring: the plain queue also counts the entries of each file object, and waits for its lock with backoff, as the proved one does</text>")
    return svg(left + width + 60, height + 20, 'Beside plain code of the same design', parts)
