"""Pages: each entry once, arrows of the history, and no text that is read as HTML."""
import json
import re
import unittest
from html.parser import HTMLParser

from lib.following import Unfollowed, follow
from lib.links import links_of
from lib.page import write_page
from lib.report import Entry, read_report
from lib.script import BadScript, read_script
from tests.long_report import long_report
from tests.reading import bytes_of, entries_of_text, report_names, script_name


class Elements(HTMLParser):
    """The elements of a page, and the text of its block of data."""

    def __init__(self, page):
        super().__init__()
        self.names = []
        self.data = ''
        self.in_data = False
        self.feed(page)
        self.close()

    def handle_starttag(self, tag, attrs):
        self.names.append(tag)
        self.in_data = dict(attrs).get('id') == 'data'

    def handle_endtag(self, tag):
        self.in_data = False

    def handle_data(self, data):
        if self.in_data:
            self.data += data


def data_of(page):
    return json.loads(Elements(page).data)


def entries_of(lines):
    """A history of lines without numbers."""
    made = []
    for number, line in enumerate(lines, 1):
        actor, text = line.split(' ', 1)
        made.append(Entry(number, actor, text.split(' ')))
    return made


def slow_links(entries):
    """Letters and commands by a search through all entries before, as the rule says it."""
    found = set()
    for entry in entries:
        words = entry.words
        own = entry.actor[5:]
        for before in entries[:entry.number - 1]:
            text = f' {before.text} '
            if entry.kind == 'exec' and text == f' draw {own} {words[1]} ':
                found.add(('command', before.number, entry.number))
            accepted = f' {own} ok {words[-1]} ' in text and before.kind in ('post', 'event')
            noticed = before.actor == f'twin:{own}' and text == f' notify {words[-1]} '
            if entry.kind == 'take' and (accepted or noticed):
                found.add(('letter', before.number, entry.number))
    return found


def followed(name):
    return follow(read_report(bytes_of(name)), read_script(bytes_of(script_name(name))))


class Pages(unittest.TestCase):
    def test_each_entry_stands_once(self):
        for name in report_names():
            with self.subTest(name=name):
                data = data_of(write_page(read_report(bytes_of(name)), name))
                told = []
                for line in data['entries'].split('\n'):
                    lane, text = line.split(' ', 1)
                    told.append(f'{data["activities"][int(lane)]} {text}')
                self.assertEqual(told, entries_of_text(bytes_of(name)))

    def test_each_trace_stands_once(self):
        for name in report_names():
            with self.subTest(name=name):
                data = data_of(write_page(read_report(bytes_of(name)), name))
                told = sorted(line for lines in data['noted'].values() for line in lines)
                text = bytes_of(name).decode()
                lines = text[text.index('\ntraces\n') + 8:text.index('\nscreen ')].split('\n')
                wanted = sorted(line for line in lines
                                if line and not re.match(r'(app|loop) \S+\Z', line))
                self.assertEqual(told, wanted)

    def test_arrows_are_those_of_the_history(self):
        for name in report_names():
            with self.subTest(name=name):
                entries = read_report(bytes_of(name)).entries
                links = links_of(entries)
                self.assertEqual({link for link in links if link[0] != 'answer'},
                                 slow_links(entries))
                self.assertEqual(len(links), len(set(links)))
                claims = [entry.number for entry in entries if entry.kind == 'claim']
                self.assertEqual([end for kind, _, end in links if kind == 'answer'], claims)
                data = data_of(write_page(read_report(bytes_of(name)), name))
                kinds = [data['linkKinds'][int(digit)] for digit in data['links']['kind']]
                self.assertEqual(links, list(zip(kinds, data['links']['from'], data['links']['to'])))

    def test_answers_of_examples(self):
        for name, wanted in (('every_line.report', [(85, 86)]),
                             ('send_and_reply.report', [(3, 4), (7, 8), (11, 12)])):
            with self.subTest(name=name):
                links = links_of(read_report(bytes_of(name)).entries)
                self.assertEqual([link[1:] for link in links if link[0] == 'answer'], wanted)

    def test_answers_go_past_forwards_to_who_waits(self):
        entries = entries_of([
            'app:m post a ok 1', 'app:n post b ok 1', 'loop:a take 1', 'loop:b take 1',
            'loop:a post b ok 2', 'loop:a post a ok 2', 'loop:a end none', 'loop:b end noreply',
            'loop:b take 2', 'loop:b reply ok', 'loop:b reply duplicate', 'loop:b end none',
            'loop:a take 2', 'loop:a reply unwanted', 'loop:a end none', 'app:n claim noreply',
            'app:m claim reply', 'stop stop'])
        self.assertEqual([link for link in links_of(entries) if link[0] == 'answer'],
                         [('answer', 8, 16), ('answer', 10, 17)])

    def test_no_text_of_a_report_is_read_as_html(self):
        hostile = '</script><script>&amp;<!--"'
        data = bytes_of('first_window.report').decode()
        data = data.replace('history 15', 'history 16').replace('15 stop stop', f'15 app:m note {hostile}'
                                                                '\n16 stop stop')
        data = data.replace('app m\n', f'app m\nnote {hostile}\n')
        plain = Elements(write_page(read_report(bytes_of('first_window.report')), 'a'))
        page = Elements(write_page(read_report(data.encode()), '<b>a</b>'))
        self.assertEqual(page.names, plain.names)
        self.assertEqual(json.loads(page.data)['noted']['15'], [f'note {hostile}'])

    def test_a_page_needs_nothing_beside_itself(self):
        page = write_page(read_report(bytes_of('press.report')), 'press')
        self.assertNotIn('{{', page)
        self.assertEqual(re.findall(r'(?:src|href)\s*=|url\((?!#)|@import', page), [])

    def test_a_long_report(self):
        data = long_report(20000)
        page = data_of(write_page(read_report(data), 'long'))
        self.assertEqual(page['entries'].count('\n') + 1, len(entries_of_text(data)))
        self.assertEqual(len(page['links']['to']), 2 * data.count(b' take '))


class Following(unittest.TestCase):
    def test_each_example_comes_to_its_screen(self):
        for name in report_names():
            with self.subTest(name=name):
                self.assertEqual(len(followed(name).changed), read_report(bytes_of(name)).height)

    def test_who_changed_a_pixel_last(self):
        for name in report_names():
            try:
                lines = bytes_of(name.replace('.report', '.explained')).decode().split('\n')[:-1]
            except FileNotFoundError:
                continue
            rows = followed(name).changed
            report = read_report(bytes_of(name))
            for line in lines:
                with self.subTest(name=name, line=line):
                    x, y, color, entry = line.split(' ')
                    self.assertEqual(report.color_at(int(x), int(y)), color)
                    self.assertEqual(rows[int(y)][int(x)], int(entry))

    def test_commands_are_those_of_the_script(self):
        commands = followed('first_window.report').commands
        self.assertEqual(commands, {2: 'show', 3: 'fill root 0 0 9 9 high', 6: 'show',
                                    9: 'fill root 0 0 9 9 high', 11: 'end of update',
                                    14: 'end of update'})

    def test_another_script_is_refused(self):
        report = read_report(bytes_of('painters.report'))
        script = bytes_of('painters.script')
        for what, other in (('size', script.replace(b'screen 2 1', b'screen 2 2')),
                            ('color', script.replace(b'0000ff', b'0000fe')),
                            ('commands', script.replace(b'  show\n', b''))):
            with self.subTest(what=what), self.assertRaises(Unfollowed):
                follow(report, read_script(other))

    def test_what_is_no_script_is_refused_with_its_line(self):
        for text, line in ((b'screen 4 3\nbogus\n', 2), (b'', 1), (b'screen 4\n\xff\n', 2),
                           (b'screen 4 3\nwindow a 0 0 1\n', 2), (b'screen 4 3\ndraw a root\n', 2)):
            with self.subTest(text=text), self.assertRaises(BadScript) as caught:
                read_script(text)
            self.assertEqual(caught.exception.line, line)


if __name__ == '__main__':
    unittest.main()
