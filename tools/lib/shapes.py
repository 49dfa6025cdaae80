"""The pixels of what is drawn, as runs: a row, its first and its last column."""
from lib.glyphs import glyph_pixels


def fill_runs(rect):
    """A filled rectangle."""
    left, top, right, bottom = rect
    return [(y, left, right) for y in range(top, bottom + 1)] if left <= right else []


def _share(distance, step, steps):
    """How far a coordinate has gone at a step: rounded to the nearest, a half away from the start."""
    gone = (2 * step * abs(distance) + steps) // (2 * steps) if steps else 0
    return gone if distance >= 0 else -gone


def _line_rows(line, size, rows):
    """Adds to the rows of a shape those of a line of a pen."""
    x0, y0, x1, y1 = line
    steps = max(abs(x1 - x0), abs(y1 - y0))
    before = (size - 1) // 2
    own = {}
    for step in range(steps + 1):
        x = x0 + _share(x1 - x0, step, steps) - before
        y = y0 + _share(y1 - y0, step, steps) - before
        for row in range(y, y + size):
            first, last = own.get(row, (x, x))
            own[row] = min(first, x), max(last, x + size - 1)
    for row, run in own.items():
        rows.setdefault(row, []).append(run)


def _joined(rows):
    """Runs of which no two have a pixel in common."""
    runs = []
    for y in sorted(rows):
        last = None
        for first, end in sorted(rows[y]):
            if last is not None and first <= runs[-1][2] + 1:
                runs[-1] = (y, runs[-1][1], max(runs[-1][2], end))
            else:
                runs.append((y, first, end))
            last = y
    return runs


def line_runs(line, size):
    """A line of a pen: the pen's square at each of its points."""
    rows = {}
    _line_rows(line, size, rows)
    return _joined(rows)


def frame_runs(rect, size):
    """The four sides of a rectangle as lines; an empty one has none."""
    left, top, right, bottom = rect
    if left > right or top > bottom:
        return []
    rows = {}
    for side in ((left, top, right, top), (left, bottom, right, bottom),
                 (left, top, left, bottom), (right, top, right, bottom)):
        _line_rows(side, size, rows)
    return _joined(rows)


def text_runs(text, pen):
    """The glyphs of a text from the pen on."""
    rows = {}
    x, y = pen
    for letter in text:
        for column, row in glyph_pixels(ord(letter)):
            rows.setdefault(y - 6 + row, []).append((x + column, x + column))
        x = min(x + 6, 32767)
    return _joined(rows)


def pen_behind(text, x):
    """The pen's column behind a text."""
    return min(x + 6 * len(text), 32767)
