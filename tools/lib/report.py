"""A report, read back: its entries, what was noted of them, and its screen.

A text that isn't a report in exactly the form of docs/FORMATS.md is refused with the number of its
first faulty line. Whether the history is legal isn't judged here; `replay` does that.
"""
import re

NUMBER = r'(?:0|[1-9][0-9]{0,19})'
NAME = r'[a-z][a-z0-9_]{0,15}'
OUTCOME = rf'(?:ok {NUMBER}|wouldblock {NUMBER}|badport|toodeep)'
RUNNER = rf'(?:app|loop|twin):{NAME}|input|stop'
WORD = r'[!-~]{1,32}'
WHAT = r'[A-Za-z0-9_]{4}'

ENTRY = re.compile(rf'({NUMBER}) ({RUNNER}) (.*)\Z')
RUN = re.compile(r'([1-9][0-9]{0,3})x([0-9a-f]{6})\Z')

# What each kind of runner may say, and how.
PROGRAM = {
    'post': rf'post {NAME} {OUTCOME}',
    'note': rf'note {WORD}',
    'draw': rf'draw {NAME} {NUMBER}',
    'flush': rf'flush {NAME} {NUMBER}',
    'syncdone': rf'syncdone {NAME}',
}
TEXTS = {
    'app': {
        **PROGRAM,
        'claim': r'claim (?:reply|noreply|unknown)',
        'lock': rf'lock {NAME}',
        'unlock': rf'unlock {NAME}',
    },
    'loop': {
        **PROGRAM,
        'take': rf'take {NUMBER}',
        'reply': r'reply (?:ok|duplicate|unwanted)',
        'begin': r'begin (?:open|nothing)',
        'end': r'end (?:none|noreply|unknown)',
    },
    'twin': {
        'exec': rf'exec {NUMBER} (?:done|stackfull|stackempty|noview|nobitmap|offrange|gone)',
        'notify': rf'notify {NUMBER}',
    },
    'input': {'event': rf'event {NUMBER}(?: {NAME} {OUTCOME}){{0,2}}'},
    'stop': {'stop': r'stop'},
}
FORMS = {
    runner: {kind: re.compile(form + r'\Z') for kind, form in kinds.items()}
    for runner, kinds in TEXTS.items()
}
TRACE = re.compile(
    rf'(?:note {WORD}|got {WHAT}(?: .*)?|reply {WHAT}(?: .*)?|update {NAME}(?: -?{NUMBER}){{4}}'
    rf'|take {NUMBER} (?:{RUNNER}) {NUMBER} {WHAT} {NAME} (?:{NAME}|[-/])(?: .*)?)\Z')


class BadReport(Exception):
    """The number of a text's first faulty line, and why it is none of a report."""

    def __init__(self, line, reason):
        super().__init__(f'report line {line}: {reason}')
        self.line = line
        self.reason = reason


class Entry:
    """One step: its number from 1 on, who made it, its words, and the lines noted of it."""

    __slots__ = ('number', 'actor', 'words', 'noted')

    def __init__(self, number, actor, words):
        self.number = number
        self.actor = actor
        self.words = words
        self.noted = ()

    @property
    def kind(self):
        return self.words[0]

    @property
    def text(self):
        return ' '.join(self.words)


class Report:
    """Entries in order, the names of applications and windows, and the rows of the screen.

    A row is a list of runs, each a count and six hexadecimal digits.
    """

    def __init__(self):
        self.entries = []
        self.apps = []
        self.windows = []
        self.width = 0
        self.height = 0
        self.rows = []

    def color_at(self, x, y):
        """The six digits of a pixel of the screen."""
        for count, color in self.rows[y]:
            if x < count:
                return color
            x -= count
        raise IndexError(x)

    def activities(self):
        """The words of all activities, in order of their numbers."""
        loops = [word + name for name in self.windows for word in ('loop:', 'twin:')]
        return ['app:' + name for name in self.apps] + loops + ['input', 'stop']


class _Lines:
    """The lines of a text, one after the other, counted from 1."""

    def __init__(self, text):
        self.lines = text.split('\n')
        self.last_is_whole = self.lines[-1] == ''
        if self.last_is_whole:
            self.lines.pop()
        self.at = 0

    def peek(self):
        return self.lines[self.at] if self.at < len(self.lines) else None

    def next(self, wanted):
        line = self.peek()
        self.at += 1
        if line is None:
            raise BadReport(self.at, f'the text ends where {wanted} is due')
        if self.at == len(self.lines) and not self.last_is_whole:
            raise BadReport(self.at, 'the last line has no line feed')
        return line

    def refuse(self, reason):
        raise BadReport(self.at, reason)


def read_report(data):
    """The report that these bytes are; BadReport where they are none."""
    try:
        text = data.decode('ascii')
    except UnicodeDecodeError as fault:
        line = data.count(b'\n', 0, fault.start) + 1
        raise BadReport(line, 'a byte that no report has') from None
    lines = _Lines(text)
    report = Report()
    _read_history(lines, report)
    traces = _read_traces(lines, report)
    _read_screen(lines, report)
    _join_traces(report, traces)
    return report


def _read_history(lines, report):
    match = re.match(rf'history ({NUMBER})\Z', lines.next('`history N`'))
    if not match:
        lines.refuse('`history N` is due')
    for number in range(1, int(match.group(1)) + 1):
        report.entries.append(_read_entry(lines, number))


def _read_entry(lines, number):
    match = ENTRY.match(lines.next(f'entry {number}'))
    if not match or int(match.group(1)) != number:
        lines.refuse(f'entry {number} is due')
    actor, text = match.group(2), match.group(3)
    words = text.split(' ')
    form = FORMS[actor.split(':')[0]].get(words[0])
    if not form or not form.match(text):
        lines.refuse(f'{actor} makes no such entry')
    return Entry(number, actor, words)


def _read_traces(lines, report):
    """Of each application and looper the lines that it noted, each with its number."""
    if lines.next('`traces`') != 'traces':
        lines.refuse('`traces` is due behind the entries')
    traces = {}
    own = None
    while lines.peek() is not None and not lines.peek().startswith('screen '):
        line = lines.next('a trace')
        head = re.match(rf'(app|loop) ({NAME})\Z', line)
        if head:
            own = traces.setdefault(':'.join(head.groups()), [])
            (report.apps if head.group(1) == 'app' else report.windows).append(head.group(2))
        elif own is None or not TRACE.match(line):
            lines.refuse('a trace, or `screen W H`, is due')
        else:
            own.append((lines.at, line))
    return traces


def _read_screen(lines, report):
    match = re.match(rf'screen ({NUMBER}) ({NUMBER})\Z', lines.next('`screen W H`'))
    if not match:
        lines.refuse('`screen W H` is due')
    report.width, report.height = int(match.group(1)), int(match.group(2))
    if not (1 <= report.width <= 1024 and 1 <= report.height <= 768):
        lines.refuse('a screen has 1 by 1 to 1024 by 768 pixels')
    for y in range(report.height):
        report.rows.append(_read_row(lines, y, report.width))
    if lines.next('`end`') != 'end':
        lines.refuse('`end` is due behind the last row')
    if lines.peek() is not None:
        lines.at += 1
        lines.refuse('nothing is due behind `end`')


def _read_row(lines, y, width):
    words = lines.next(f'row {y}').split(' ')
    if words[0] != str(y):
        lines.refuse(f'row {y} is due')
    row = []
    for word in words[1:]:
        match = RUN.match(word)
        if not match:
            lines.refuse(f'row {y} has a run that is none')
        if row and row[-1][1] == match.group(2):
            lines.refuse(f'row {y} has a run that goes on in the next')
        row.append((int(match.group(1)), match.group(2)))
    if sum(count for count, _ in row) != width:
        lines.refuse(f'row {y} has not {width} pixels')
    return row


# How the first words of a line begin that is noted of an entry, by the entry's kind.
DUE = {
    'note': lambda entry: entry.text,
    'claim': lambda entry: 'got ',
    'take': lambda entry: entry.text + ' ',
    'reply': lambda entry: 'reply ' if entry.words[1] == 'ok' else None,
    'begin': lambda entry: 'update ' if entry.words[1] == 'open' else None,
}


def _join_traces(report, traces):
    """Gives each entry the lines that its maker noted of it."""
    left = {runner: iter(own) for runner, own in traces.items()}
    ahead = {runner: next(own, None) for runner, own in left.items()}
    known, windows = set(report.activities()), set(report.windows)
    for entry in report.entries:
        line_of_entry = entry.number + 1
        if entry.actor not in known:
            raise BadReport(line_of_entry, f'{entry.actor} has no traces')
        for name in windows_of(entry):
            if name not in windows:
                raise BadReport(line_of_entry, f'{name} is no window of this report')
        due = DUE.get(entry.kind, lambda entry: None)(entry)
        if due is None:
            continue
        entry.noted = _noted(entry, due, ahead, left)
    for runner, line in ahead.items():
        if line is not None:
            raise BadReport(line[0], f'no entry of {runner} notes this')


def _noted(entry, due, ahead, left):
    runner = entry.actor
    noted = []
    while ahead[runner] is not None:
        line = ahead[runner][1]
        if line != due if entry.kind == 'note' else not line.startswith(due):
            break
        noted.append(line)
        ahead[runner] = next(left[runner], None)
        if entry.kind != 'begin':
            break
    if not noted:
        line = ahead[runner]
        where = line[0] if line else entry.number + 1
        raise BadReport(where, f'entry {entry.number} of {runner} has no trace here')
    return tuple(noted)


def windows_of(entry):
    """The names of the windows that an entry is of, its maker's first."""
    names = []
    if entry.actor.startswith(('loop:', 'twin:')):
        names.append(entry.actor[5:])
    if entry.kind in ('post', 'lock', 'unlock', 'draw', 'flush', 'syncdone'):
        names.append(entry.words[1])
    if entry.kind == 'event':
        at = 2
        while at < len(entry.words):
            names.append(entry.words[at])
            at += 2 if entry.words[at + 1] in ('badport', 'toodeep') else 3
    return names


def letters_of(entry):
    """The letters that an entry had accepted: pairs of a window's name and a number."""
    words = entry.words
    if entry.kind == 'post':
        return [(words[1], int(words[3]))] if words[2] == 'ok' else []
    if entry.kind == 'notify':
        return [(entry.actor[5:], int(words[1]))]
    if entry.kind == 'event':
        return [(words[at - 1], int(words[at + 1]))
                for at in range(3, len(words)) if words[at] == 'ok' and words[at + 1:at + 2]]
    return []
