"""Follows the history of a report through its script, to tell of each pixel which entry changed it
last.

Which command an entry draws is told by the script: a program has no branches, and the traces tell
which body a looper runs. The commands that the twins execute are carried out on a screen of its
own. Where that isn't the report's screen at the end, nothing is told.
"""
from lib.desk import Desk
from lib.painting import Painter
from lib.script import read_color

COMMANDS = {
    'fill', 'frame', 'line', 'text', 'bitmap', 'high', 'low', 'viewcolor', 'mode', 'pensize', 'pen',
    'origin', 'clip', 'push', 'pop', 'copybits', 'invalidate', 'show', 'hide', 'moveto', 'moveby',
    'resizeto', 'activate', 'behind', 'focus', 'close',
}
END_OF_UPDATE = ['end of update']


class Unfollowed(Exception):
    """Why a report isn't one of a script."""


def _commands(program):
    return [words for words in program if words[0] in COMMANDS]


def _numbers(words):
    return tuple(int(word) for word in words)


class _Drawing:
    """Which command each entry draws: of each window its commands so far, and of each runner those
    that it has still to draw."""

    def __init__(self, script):
        self.script = script
        self.drawn = {window.name: [] for window in script.windows}
        self.ahead = {'app:' + name: iter(_commands(program)) for name, program in script.apps}

    def follow(self, entry):
        if entry.kind == 'draw':
            self.drawn[entry.words[1]].append(next(self.ahead[entry.actor]))
        elif entry.kind == 'take':
            self._take(entry)
        elif entry.kind == 'begin':
            self._begin(entry)

    def _window(self, entry):
        return self.script.windows[self.script.window(entry.actor[5:])]

    def _take(self, entry):
        words = entry.noted[0].split(' ')
        what, handler = words[4], words[6]
        body = self._window(entry).bodies.get((handler, what), [])
        self.ahead[entry.actor] = iter(_commands(body))

    def _begin(self, entry):
        window = self._window(entry)
        commands = []
        for line in entry.noted:
            commands += _commands(window.draws.get(line.split(' ')[1], []))
        self.ahead[entry.actor] = iter(commands + [END_OF_UPDATE])


class _Changing:
    """Carries commands out, each by the entry of a number."""

    def __init__(self, script):
        self.script = script
        self.desk = Desk(script)

    def execute(self, window, words, number):
        if words is END_OF_UPDATE:
            self.desk.windows[window].session = None
        elif hasattr(self, 'do_' + words[0]):
            getattr(self, 'do_' + words[0])(window, words, number)
        else:
            view = self.script.windows[window].view(words[1])
            painter = Painter(self.desk, window, view, number)
            self._at_view(painter, words)

    def _at_view(self, painter, words):
        kind = words[0]
        if kind in ('fill', 'frame', 'line'):
            getattr(painter, kind)(_numbers(words[2:6]), words[6])
        elif kind == 'text':
            painter.text(words[2])
        elif kind == 'bitmap':
            painter.bitmap(self.script.bitmaps[words[2]], *_numbers(words[3:5]))
        elif kind == 'copybits':
            painter.copy_bits(_numbers(words[2:6]), *_numbers(words[6:8]))
        elif kind == 'invalidate':
            painter.invalidate(_numbers(words[2:6]))
        elif kind == 'viewcolor':
            painter.window.colors[painter.view] = read_color(words[2])
        else:
            _set(painter.stack, kind, words)

    def _window_changed(self, window, number, motion=None):
        self.desk.lay_out(window, motion, number)

    def do_show(self, window, words, number):
        own = self.desk.windows[window]
        own.hides = max(0, own.hides - 1)
        self._window_changed(window, number)

    def do_hide(self, window, words, number):
        self.desk.windows[window].hides += 1
        self._leave(window)
        self._window_changed(window, number)

    def do_close(self, window, words, number):
        self.desk.windows[window].closed = True
        self.desk.order.remove(window)
        self._leave(window)
        self._window_changed(window, number)

    def _leave(self, window):
        if self.desk.active == window:
            self.desk.active = None

    def do_activate(self, window, words, number):
        self.desk.activate(window)
        self._window_changed(window, number)

    def do_behind(self, window, words, number):
        front = self.script.window(words[1])
        order = self.desk.order
        if front != window:
            order.remove(window)
            order.insert(order.index(front) + 1, window)
        self._window_changed(window, number)

    def do_focus(self, window, words, number):
        """Changes no pixel."""

    def _move(self, window, x, y, number):
        own = self.desk.windows[window]
        dx, dy = x - own.frame[0], y - own.frame[1]
        own.move_to(x, y)
        self._window_changed(window, number, ('move', dx, dy))

    def do_moveto(self, window, words, number):
        self._move(window, int(words[1]), int(words[2]), number)

    def do_moveby(self, window, words, number):
        left, top = self.desk.windows[window].frame[:2]
        self._move(window, left + int(words[1]), top + int(words[2]), number)

    def do_resizeto(self, window, words, number):
        own = self.desk.windows[window]
        places = [own.place(view) for view in range(len(own.frames))]
        own.resize_to(int(words[1]), int(words[2]))
        self._window_changed(window, number, ('resize', places))


def _set(stack, kind, words):
    """A command that changes a view's drawing state alone."""
    layer = stack.top
    if kind == 'push':
        stack.push()
    elif kind == 'pop':
        stack.pop()
    elif kind == 'clip':
        flat = [] if words[2] == 'none' else _numbers(words[2:])
        stack.set_clip([flat[at:at + 4] for at in range(0, len(flat), 4)] or None)
    elif kind in ('high', 'low'):
        setattr(layer, kind, read_color(words[2]))
    elif kind == 'mode':
        layer.mode = words[2]
    elif kind == 'pensize':
        layer.size = int(words[2])
    else:
        setattr(layer, kind, _numbers(words[2:4]))


class Followed:
    """What a history comes to by its script: for each row of the screen, for each pixel, the number
    of the last entry that changed its colour, 0 where none did; and the words of the commands, by
    the number of the entry that draws one or executes it."""

    def __init__(self):
        self.changed = []
        self.commands = {}


def _walk(report, script, commands):
    drawing = _Drawing(script)
    changing = _Changing(script)
    desk = changing.desk
    for entry in report.entries:
        drawing.follow(entry)
        if entry.kind == 'draw':
            commands[entry.number] = ' '.join(drawing.drawn[entry.words[1]][-1])
        elif entry.kind == 'exec':
            name = entry.actor[5:]
            words = drawing.drawn[name][int(entry.words[1]) - 1]
            commands[entry.number] = ' '.join(words)
            if entry.words[2] == 'done':
                changing.execute(script.window(name), words, entry.number)
        elif entry.kind == 'begin' and entry.words[1] == 'open':
            desk.begin(script.window(entry.actor[5:]))
        elif entry.kind == 'event':
            event = script.input[int(entry.words[1]) - 1]
            if event[0] == 'press':
                desk.press(int(event[1]), int(event[2]), entry.number)
    return desk


def follow(report, script):
    """A report's history, followed; Unfollowed where it isn't one of the script."""
    if (report.width, report.height) != script.size:
        raise Unfollowed('the report has a screen of another size than the script')
    followed = Followed()
    try:
        desk = _walk(report, script, followed.commands)
    except (LookupError, StopIteration, RuntimeError, ValueError) as fault:
        raise Unfollowed('the history is none of this script') from fault
    for y, row in enumerate(report.rows):
        at = y * report.width
        for count, color in row:
            want = [int(color, 16)] * count
            if desk.colors[at:at + count] != want:
                raise Unfollowed(f'in row {y} the history gives other pixels than the report has')
            at += count
        followed.changed.append(desk.changed[at - report.width:at])
    return followed
