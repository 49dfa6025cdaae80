"""Drawing states, and what a command of drawing makes of the pixels that it reaches."""
import re

from lib.blending import blended, pattern_rows, picked
from lib.shapes import fill_runs, frame_runs, line_runs, pen_behind, text_runs
from lib.sets import both, only

ONES = re.compile(b'\1+')
SOLID = (bytes(8), bytes([255] * 8))


class Layer:
    """A drawing state with its clip: rectangles in view coordinates, or None."""

    def __init__(self):
        self.high = 0
        self.low = 0xffffff
        self.mode = 'copy'
        self.size = 1
        self.pen = (0, 0)
        self.origin = (0, 0)
        self.clip = None


class Stack:
    """The drawing states of a view, the one in force last."""

    def __init__(self):
        self.layers = [Layer()]

    @property
    def top(self):
        return self.layers[-1]

    @property
    def base(self):
        """The sum of all origins."""
        return (sum(layer.origin[0] for layer in self.layers),
                sum(layer.origin[1] for layer in self.layers))

    def push(self):
        new = Layer()
        new.__dict__.update(self.top.__dict__, origin=(0, 0), clip=None)
        self.layers.append(new)

    def pop(self):
        self.layers.pop()

    def set_clip(self, rects):
        x, y = self.base
        self.top.clip = rects and [(r[0] + x, r[1] + y, r[2] + x, r[3] + y) for r in rects]

    def row(self, y, first, last):
        """Bytes of 1 where every clip has the pixels of a row, in view coordinates."""
        allowed = b'\1' * (last - first + 1)
        for layer in self.layers:
            if layer.clip is not None:
                allowed = both(allowed, _clip_row(layer.clip, y, first, last))
        return allowed


def _clip_row(rects, y, first, last):
    row = bytearray(last - first + 1)
    for left, top, right, bottom in rects:
        start, end = max(left, first), min(right, last)
        if top <= y <= bottom and start <= end:
            row[start - first:end - first + 1] = b'\1' * (end - start + 1)
    return bytes(row)


class Painter:
    """Draws on one view of a window, by the entry of a number."""

    def __init__(self, desk, window, view, number):
        self.desk = desk
        self.own = window
        self.window = desk.windows[window]
        self.view = view
        self.number = number
        self.stack = self.window.stacks[view]
        self.is_own, self.is_view = only(window), only(view)
        self.left, self.top = self.window.frame[:2]
        place = self.window.place(view)
        base = self.stack.base
        self.view_at = (self.left + place[0], self.top + place[1])
        self.origin = (self.view_at[0] + base[0], self.view_at[1] + base[1])

    def is_here(self, at):
        """The window owns the pixel, and the view is the one at it."""
        layout = self.desk.layout
        return layout.owner[at] == self.own and layout.view[at] == self.view

    def seen(self, runs):
        """Runs of drawing coordinates on the screen: each with its row, and its first and last
        column there."""
        for row, first, last in runs:
            y = row + self.origin[1]
            start = max(0, first + self.origin[0])
            end = min(self.desk.width - 1, last + self.origin[0])
            if 0 <= y < self.desk.height and start <= end:
                yield y, start, end

    def reached(self, runs):
        """The reached pixels of runs, as runs of the screen."""
        layout, width = self.desk.layout, self.desk.width
        for y, first, last in self.seen(runs):
            row = slice(y * width + first, y * width + last + 1)
            here = both(layout.owner[row].translate(self.is_own),
                        layout.view[row].translate(self.is_view))
            x, view_y = self.view_at[0], y - self.view_at[1]
            here = both(here, self.stack.row(view_y, first - x, last - x))
            if self.window.session is not None:
                here = both(here, self.window.session.row(self.window.frame, y, first, last))
            for run in ONES.finditer(here):
                yield y, first + run.start(), first + run.end()

    def lay(self, runs, source):
        """Paints the reached pixels of runs, each in what `source` gives for it."""
        layer, desk = self.stack.top, self.desk
        for y, start, end in self.reached(runs):
            for x in range(start, end):
                at = y * desk.width + x
                old = desk.colors[at]
                desk.put(at, blended(layer.mode, source(x, y), old, layer.high, layer.low),
                         self.number)

    def lay_color(self, runs, color):
        """Paints the reached pixels of runs in one colour."""
        layer, desk = self.stack.top, self.desk
        if layer.mode not in ('copy', 'over'):
            self.lay(runs, lambda x, y: color)
        elif color is not None:
            for y, start, end in self.reached(runs):
                row = y * desk.width
                desk.put_run(row + start, row + end, color, self.number)

    def shape(self, runs, pattern):
        """Paints a shape by a pattern, which lies on the window."""
        rows = pattern_rows(pattern)
        layer = self.stack.top
        if rows in SOLID:
            self.lay_color(runs, picked(layer.mode, rows[0] & 1, layer.high, layer.low))
            return

        def source(x, y):
            bit = rows[(y - self.top) % 8] >> 7 - (x - self.left) % 8 & 1
            return picked(layer.mode, bit, layer.high, layer.low)

        self.lay(runs, source)

    def fill(self, rect, pattern):
        self.shape(fill_runs(rect), pattern)

    def frame(self, rect, pattern):
        self.shape(frame_runs(rect, self.stack.top.size), pattern)

    def line(self, line, pattern):
        self.shape(line_runs(line, self.stack.top.size), pattern)
        self.stack.top.pen = line[2:]

    def text(self, text):
        layer = self.stack.top
        self.lay_color(text_runs(text, layer.pen), layer.high)
        layer.pen = pen_behind(text, layer.pen[0]), layer.pen[1]

    def bitmap(self, rows, x, y):
        left, top = x + self.origin[0], y + self.origin[1]
        runs = fill_runs((x, y, x + len(rows[0]) - 1, y + len(rows) - 1))
        self.lay(runs, lambda at_x, at_y: rows[at_y - top][at_x - left])

    def copy_bits(self, rect, x, y):
        """Copies a rectangle of the view; what has no source is newly exposed."""
        dx, dy = x - rect[0], y - rect[1]
        desk = self.desk
        old = list(desk.colors)
        target = (rect[0] + dx, rect[1] + dy, rect[2] + dx, rect[3] + dy)
        for y, start, end in self.reached(fill_runs(target)):
            for x in range(start, end):
                at, source = y * desk.width + x, (y - dy) * desk.width + x - dx
                inside = 0 <= x - dx < desk.width and 0 <= y - dy < desk.height
                if inside and self.is_here(source):
                    desk.put(at, old[source], self.number)
                else:
                    desk.expose(at, at + 1, self.window.colors[self.view], self.number)

    def invalidate(self, rect):
        """Exposes the pixels of a rectangle that this view has, or one that lies in it."""
        layout, window = self.desk.layout, self.window
        below = {at for at in range(len(window.frames)) if window.is_at_or_below(self.view, at)}
        for y, first, last in self.seen(fill_runs(rect)):
            for at in range(y * self.desk.width + first, y * self.desk.width + last + 1):
                view = layout.view[at]
                if layout.owner[at] == self.own and view in below:
                    self.desk.expose(at, at + 1, window.colors[view], self.number)
