"""Reports: what is damaged is refused, with the number of its first faulty line."""
import unittest

from lib.report import BadReport, read_report
from tests.long_report import long_report
from tests.reading import bytes_of, entries_of_text, report_names, rows_of_text

# Of first_window.report: a line, what stands in its place, and the line that is refused.
DAMAGED = [
    (1, 'history 16', 17),
    (1, 'history 14', 16),
    (1, 'history 015', 1),
    (1, 'History 15', 1),
    (2, '1 app:m lock  a', 2),
    (2, '1 app:m lock a ', 2),
    (2, '2 app:m lock a', 2),
    (2, '1 app:m take 1', 2),
    (2, '1 app:n lock a', 2),
    (2, '1 app:m lock b', 2),
    (2, '1 app:m lock', 2),
    (6, '5 app:m unlock a\r', 6),
    (7, '6 twin:a exec 1 well', 7),
    (7, '6 twin:a exec 01 done', 7),
    (8, '7 input event 1 a ok', 8),
    (9, '8 loop:a take 2', 20),
    (16, '15 stop', 16),
    (17, 'trace', 17),
    (18, 'bogus', 18),
    (20, 'take 2 twin:a 0 UPDT window window', 20),
    (20, 'take 1 twin:a 0 UPDT window', 20),
    (20, 'note seen', 20),
    (21, 'update root 0 0 1', 21),
    (21, 'note seen', 21),
    (22, 'screen 4 2', 25),
    (22, 'screen 5 3', 23),
    (22, 'screen 4 0', 22),
    (22, 'screen 1025 3', 22),
    (23, '0 4x33669', 23),
    (23, '0 3x336698', 23),
    (23, '0 2x336698 2x336698', 23),
    (23, '0 04x336698', 23),
    (23, '1 4x336698', 23),
    (26, 'End', 26),
    (26, 'end\nend', 27),
]


class Reports(unittest.TestCase):
    def test_entries_and_pixels(self):
        for name in report_names():
            with self.subTest(name=name):
                report = read_report(bytes_of(name))
                self.assertEqual([f'{entry.actor} {entry.text}' for entry in report.entries],
                                 entries_of_text(bytes_of(name)))
                rows = rows_of_text(bytes_of(name))
                self.assertEqual((report.width, report.height), (len(rows[0]), len(rows)))
                for x, y in ((0, 0), (report.width - 1, report.height - 1)):
                    self.assertEqual(report.color_at(x, y), rows[y][x])

    def test_each_trace_is_with_its_entry(self):
        report = read_report(bytes_of('press.report'))
        noted = {entry.number: entry.noted for entry in report.entries if entry.noted}
        self.assertEqual(noted, {
            11: ('take 1 twin:a 0 UPDT window window',),
            12: ('update root 0 0 2 0',),
            23: ('take 1 twin:b 0 UPDT window window',),
            24: ('update root 0 0 0 0',),
            30: ('take 2 input 0 MDWN root root where=BPNT:0/0',),
            36: ('take 2 twin:a 0 UPDT window window',),
            37: ('update root 0 0 0 0',),
        })

    def refused(self, data):
        with self.assertRaises(BadReport) as caught:
            read_report(data)
        return caught.exception.line

    def test_a_damaged_line_is_refused(self):
        lines = bytes_of('first_window.report').decode().split('\n')
        for line, text, refused in DAMAGED:
            with self.subTest(line=line, text=text):
                damaged = lines[:line - 1] + [text] + lines[line:]
                self.assertEqual(self.refused('\n'.join(damaged).encode()), refused)

    def test_a_missing_line_is_refused(self):
        whole = bytes_of('first_window.report').decode().split('\n')
        for line in range(1, len(whole)):
            with self.subTest(line=line):
                self.refused('\n'.join(whole[:line - 1] + whole[line:]).encode())

    def test_a_front_part_is_refused(self):
        whole = bytes_of('first_window.report')
        for size in range(len(whole)):
            with self.subTest(size=size):
                self.assertEqual(self.refused(whole[:size]), whole.count(b'\n', 0, size) + 1)

    def test_a_byte_that_is_not_ascii_is_refused(self):
        data = bytearray(bytes_of('first_window.report'))
        data[data.index(b'traces')] = 0xe9
        self.assertEqual(self.refused(bytes(data)), 17)

    def test_a_long_report(self):
        data = long_report(2000)
        self.assertEqual(len(read_report(data).entries), len(entries_of_text(data)))


if __name__ == '__main__':
    unittest.main()
