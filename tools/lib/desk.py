"""The windows of a screen and its pixels, as the history of a report changes them.

Each pixel has a colour, a mark that it waits to be drawn, and the number of the last entry that
changed its colour, 0 where none did.
"""
from itertools import groupby

from lib.painting import Stack
from lib.sets import both, only

DESKTOP = 0x336698
NOBODY = 255
ACROSS = {'left': (0, 0), 'none': (0, 0), 'right': (1, 1), 'leftright': (0, 1)}
DOWN = {'top': (0, 0), 'none': (0, 0), 'bottom': (1, 1), 'topbottom': (0, 1)}


class Window:
    """A window of a run: its frame, the frames of its views, their colours and drawing states."""

    def __init__(self, line):
        self.line = line
        self.frame = line.frame
        self.hides = 1
        self.closed = False
        self.frames = [view.frame for view in line.views]
        self.colors = [view.color for view in line.views]
        self.stacks = [Stack() for _ in line.views]
        self.session = None

    @property
    def is_shown(self):
        return not self.closed and self.hides == 0

    def place(self, view):
        """A view's left top within the window."""
        x = y = 0
        while view is not None:
            x += self.frames[view][0]
            y += self.frames[view][1]
            view = self.line.views[view].parent
        return x, y

    def is_at_or_below(self, view, other):
        """Whether `other` is the view or lies in it."""
        while other is not None and other != view:
            other = self.line.views[other].parent
        return other == view

    def move_to(self, x, y):
        left, top, right, bottom = self.frame
        self.frame = x, y, right + x - left, bottom + y - top

    def resize_to(self, width, height):
        left, top, _, _ = self.frame
        self.frame = left, top, left + width, top + height
        old = self.frames
        self.frames = [(0, 0, width, height)]
        for at, view in list(enumerate(self.line.views))[1:]:
            self.frames.append(_followed(old[at], view, old[view.parent], self.frames[view.parent]))


def _shifts(mode, table, old, new):
    if mode in table:
        return [share * (new - old) for share in table[mode]]
    return [new // 2 - old // 2] * 2


def _followed(frame, view, old, new):
    """A view's frame after its parent's went from one size to another."""
    across = _shifts(view.across, ACROSS, old[2] - old[0] + 1, new[2] - new[0] + 1)
    down = _shifts(view.down, DOWN, old[3] - old[1] + 1, new[3] - new[1] + 1)
    return (frame[0] + across[0], frame[1] + down[0], frame[2] + across[1], frame[3] + down[1])


def _shared(one, other):
    return (max(one[0], other[0]), max(one[1], other[1]),
            min(one[2], other[2]), min(one[3], other[3]))


class Session:
    """The pixels that an open update may draw: those of a window that waited when it began. They
    move along with the window."""

    def __init__(self, frame, pixels, width, height):
        self.frame = frame
        self.pixels = pixels
        self.width = width
        self.height = height

    def row(self, frame, y, first, last):
        """Bytes of 1 where it has the pixels of a row of the screen, the window's frame being
        this one."""
        then_x, then_y = self.frame[0] - frame[0], self.frame[1] - frame[1]
        out = bytearray(last - first + 1)
        y += then_y
        if 0 <= y < self.height:
            start, end = max(0, first + then_x), min(self.width - 1, last + then_x)
            if start <= end:
                at = start - then_x - first
                row = y * self.width
                out[at:at + end - start + 1] = self.pixels[row + start:row + end + 1]
        return bytes(out)


class Layout:
    """At each pixel of a screen the number of its owner, and that of the owner's view there."""

    def __init__(self, width, height):
        self.width = width
        self.height = height
        self.owner = bytearray([NOBODY]) * (width * height)
        self.view = bytearray(width * height)

    def put(self, number, window):
        """A window in front of those that were put before."""
        screen = (0, 0, self.width - 1, self.height - 1)
        seen = [_shared(window.frame, screen)]
        self._fill(self.owner, seen[0], number)
        self._fill(self.view, seen[0], 0)
        self._put_children(window, 0, seen[0])

    def _put_children(self, window, parent, limit):
        for at, view in enumerate(window.line.views):
            if view.parent == parent:
                x, y = window.place(at)
                left, top, right, bottom = window.frames[at]
                x, y = x + window.frame[0], y + window.frame[1]
                seen = _shared((x, y, x + right - left, y + bottom - top), limit)
                self._fill(self.view, seen, at)
                self._put_children(window, at, seen)

    def _fill(self, pixels, rect, value):
        left, top, right, bottom = rect
        if left <= right:
            row = bytes([value]) * (right - left + 1)
            for y in range(top, bottom + 1):
                start = y * self.width + left
                pixels[start:start + len(row)] = row


class Desk:
    """All windows of a script's run, and the screen that they share."""

    def __init__(self, script):
        self.width, self.height = script.size
        self.windows = [Window(line) for line in script.windows]
        self.order = list(reversed(range(len(self.windows))))
        self.active = None
        pixels = self.width * self.height
        self.colors = [DESKTOP] * pixels
        self.marks = bytearray(pixels)
        self.changed = [0] * pixels
        self.layout = Layout(self.width, self.height)

    def put(self, at, color, number):
        """The colour of a pixel after the entry of this number."""
        if self.colors[at] != color:
            self.colors[at] = color
            self.changed[at] = number

    def put_run(self, start, end, color, number):
        """The same of the pixels from a place up to another one, in a row."""
        old = self.colors[start:end]
        count = end - start
        if old.count(old[0]) == count:
            if old[0] != color:
                self.changed[start:end] = [number] * count
        else:
            for at, before in enumerate(old, start):
                if before != color:
                    self.changed[at] = number
        self.colors[start:end] = [color] * count

    def expose(self, start, end, color, number):
        """Pixels that wait to be drawn; a transparent colour leaves what they showed."""
        self.marks[start:end] = b'\1' * (end - start)
        if color is not None:
            self.put_run(start, end, color, number)

    def begin(self, number):
        """Opens an update: the window's waiting pixels become its session."""
        window = self.windows[number]
        owned = self.layout.owner.translate(only(number))
        waiting = both(owned, self.marks)
        self.marks = bytearray(both(self.marks, waiting.translate(only(0))))
        window.session = Session(window.frame, waiting, self.width, self.height)

    def activate(self, number):
        """In front of the others, and active where it is shown and doesn't avoid the focus."""
        window = self.windows[number]
        self.order.remove(number)
        self.order.insert(0, number)
        if window.is_shown and not window.line.avoids_focus:
            self.active = number

    def press(self, x, y, number):
        """A press activates the window that owns the pixel, unless it is active or avoids that."""
        owner = self.layout.owner[y * self.width + x]
        if owner != NOBODY and owner != self.active and not self.windows[owner].line.avoids_focus:
            self.activate(owner)
            self.lay_out(owner, None, number)

    def lay_out(self, changed, motion, number):
        """Gives each pixel what a change of a window makes of it. A motion is None, `resize`, or
        how far the window went."""
        old = _Before(self, motion, changed)
        self.layout = Layout(self.width, self.height)
        for at in reversed(self.order):
            if self.windows[at].is_shown:
                self.layout.put(at, self.windows[at])
        for start in range(0, self.width * self.height, self.width):
            self._renew_row(old, start, number)

    def _renew_row(self, old, start, number):
        row = slice(start, start + self.width)
        owners, before = self.layout.owner[row], old.layout.owner[row]
        moves = old.motion is not None and old.changed in owners
        if owners == before and not moves:
            return
        at = start
        for now, run in groupby(zip(owners, before, self.layout.view[row])):
            end = at + sum(1 for _ in run)
            self._renew_run(old, now, at, end, number)
            at = end

    def _renew_run(self, old, now, start, end, number):
        """Pixels of one owner, of one before, and of one view."""
        owner, before, view = now
        if owner == NOBODY:
            self.marks[start:end] = bytes(end - start)
            self.put_run(start, end, DESKTOP, number)
        elif owner == old.changed and old.motion is not None:
            for at in range(start, end):
                self._renew(old, owner, at, number)
        elif owner != before:
            self.expose(start, end, self.windows[owner].colors[view], number)

    def _renew(self, old, owner, at, number):
        """A pixel of the window that was moved or resized."""
        source = old.source(self, owner, at)
        if source is None:
            view = self.layout.view[at]
            self.expose(at, at + 1, self.windows[owner].colors[view], number)
        else:
            self.marks[at] = old.marks[source]
            self.put(at, old.colors[source], number)


class _Before:
    """Windows and pixels before a change."""

    def __init__(self, desk, motion, changed):
        self.layout = desk.layout
        self.colors = list(desk.colors)
        self.marks = bytes(desk.marks)
        self.motion = motion
        self.changed = changed
        self.places = None
        if motion and motion[0] == 'resize':
            self.places = motion[1]

    def source(self, desk, owner, at):
        """The pixel whose colour and mark come to this one; None where it is newly exposed."""
        if self.places is not None:
            return at if self._is_kept(desk, owner, at) else None
        _, dx, dy = self.motion
        x, y = at % desk.width - dx, at // desk.width - dy
        if not (0 <= x < desk.width and 0 <= y < desk.height):
            return None
        source = y * desk.width + x
        return source if self.layout.owner[source] == owner else None

    def _is_kept(self, desk, owner, at):
        view = self.layout.view[at]
        return (self.layout.owner[at] == owner and desk.layout.view[at] == view
                and self.places[view] == desk.windows[owner].place(view))
