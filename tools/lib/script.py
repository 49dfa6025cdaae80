"""A script, read for what a picture of its run needs: bitmaps, windows, views and programs.

`app_server check` judges scripts. This reader takes one that is good, and stops with the line at
which it finds something else.
"""

ACROSS = {'left', 'right', 'leftright', 'hcenter', 'none'}
DOWN = {'top', 'bottom', 'topbottom', 'vcenter', 'none'}
WHITE = 0xffffff


class BadScript(Exception):
    """The number of a line that can't be followed."""

    def __init__(self, line, reason):
        super().__init__(f'script line {line}: {reason}')
        self.line = line


class View:
    """A view in its parent's coordinates; the root has no parent. A colour of None is `clear`."""

    def __init__(self, name, parent, frame, across, down, color):
        self.name = name
        self.parent = parent
        self.frame = frame
        self.across = across
        self.down = down
        self.color = color


class WindowLine:
    """What a script declares of a window; a body and a Draw body is a list of instructions."""

    def __init__(self, name, frame, options):
        self.name = name
        self.frame = frame
        self.first_click = 'firstclick' in options
        self.avoids_focus = 'avoidfocus' in options
        self.port = next((int(o[5:]) for o in options if o.startswith('port=')), 100)
        color = next((read_color(o[6:]) for o in options if o.startswith('color=')), WHITE)
        size = (0, 0, frame[2] - frame[0], frame[3] - frame[1])
        self.views = [View('root', None, size, 'left', 'top', color)]
        self.handlers = []
        self.filters = []
        self.bodies = {}
        self.draws = {}

    def view(self, name):
        """The number of a view."""
        return next(at for at, view in enumerate(self.views) if view.name == name)


class Script:
    """The screen's size, bitmaps by name, windows, applications and the input, in their order."""

    def __init__(self):
        self.size = None
        self.bitmaps = {}
        self.windows = []
        self.apps = []
        self.input = []

    def window(self, name):
        """The number of a window."""
        return next(at for at, window in enumerate(self.windows) if window.name == name)


def read_color(word):
    """A colour as a number, or None for one that is transparent."""
    return None if word in ('clear', '------') else int(word, 16)


def _numbers(words):
    return tuple(int(word) for word in words)


class _Reading:
    """A script's lines so far. `rows` is the bitmap, and `body` the list, that a line goes into."""

    def __init__(self):
        self.script = Script()
        self.rows = None
        self.body = None

    def line(self, text):
        words = text.split()
        if not words or words[0].startswith('#'):
            return
        if words[0] == 'end':
            self.body = None
        elif self.body is not None:
            self.body.append(_instruction(text.lstrip(' '), words))
        elif words[0] == 'row':
            self.rows.append([read_color(words[1][at:at + 6])
                              for at in range(0, len(words[1]), 6)])
        else:
            getattr(self, 'do_' + words[0])(words)

    def window(self, words):
        return self.script.windows[self.script.window(words[1])]

    def do_screen(self, words):
        self.script.size = _numbers(words[1:3])

    def do_bitmap(self, words):
        self.rows = self.script.bitmaps[words[1]] = []

    def do_window(self, words):
        self.script.windows.append(WindowLine(words[1], _numbers(words[2:6]), words[6:]))

    def do_view(self, words):
        window = self.window(words)
        color = read_color(words[10]) if len(words) > 10 else WHITE
        if words[8] not in ACROSS or words[9] not in DOWN:
            raise ValueError(words[8])
        window.views.append(View(words[2], window.view(words[3]), _numbers(words[4:8]), words[8],
                                 words[9], color))

    def do_handler(self, words):
        self.window(words).handlers.append((words[2], words[3]))

    def do_filter(self, words):
        self.window(words).filters.append(tuple(words[2:]))

    def do_on(self, words):
        self.body = self.window(words).bodies[words[2], words[3]] = []

    def do_draw(self, words):
        self.body = self.window(words).draws[words[2]] = []

    def do_app(self, words):
        self.body = []
        self.script.apps.append((words[1], self.body))

    def _event(self, words):
        self.script.input.append(tuple(words))

    do_press = do_release = do_point = do_key = do_after = _event


def _instruction(line, words):
    """The words of an instruction; a text of `text` is one word, with its spaces."""
    if words[0] != 'text':
        return words
    behind_view = line.split(None, 1)[1]
    view, _, text = behind_view.partition(' ')
    return ['text', view, text]


def read_script(data):
    """The script that these bytes are; BadScript where a line can't be followed."""
    reading = _Reading()
    for number, line in enumerate(data.split(b'\n'), 1):
        try:
            reading.line(line.decode('ascii').rstrip('\r'))
        except (ValueError, IndexError, KeyError, AttributeError, StopIteration,
                TypeError, UnicodeDecodeError):
            raise BadScript(number, 'this is no line of a script here') from None
    if reading.script.size is None:
        raise BadScript(1, 'a script begins with `screen W H`')
    return reading.script
