"""Pictures: each pixel of a PNG, and of the blocks of a terminal, is the report's."""
import re
import unittest

from lib.blocks import blocks
from lib.png import read_png, write_png
from lib.report import read_report
from tests.reading import bytes_of, picture_names, report_names, rows_of_text


def sized(rows, factor):
    return [[color for color in row for _ in range(factor)] for row in rows for _ in range(factor)]


class Pictures(unittest.TestCase):
    def test_each_pixel_is_read_back(self):
        for name in report_names():
            report = read_report(bytes_of(name))
            wanted = rows_of_text(bytes_of(name))
            for factor in (1, 3) if report.width <= 128 else (1,):
                with self.subTest(name=name, factor=factor):
                    data = write_png(report.rows, report.width, report.height, factor)
                    width, height, rows = read_png(data)
                    self.assertEqual((width, height),
                                     (report.width * factor, report.height * factor))
                    self.assertEqual(rows, sized(wanted, factor))

    def test_pictures_of_examples(self):
        for name in picture_names():
            with self.subTest(name=name):
                width, _, rows = read_png(bytes_of(name))
                wanted = rows_of_text(bytes_of(name.replace('.png', '.report')))
                self.assertEqual(rows, sized(wanted, width // len(wanted[0])))

    def test_more_colors_than_a_palette_has(self):
        rows = [[(1, f'{x:02x}{y:02x}80') for x in range(40)] for y in range(20)]
        _, _, pixels = read_png(write_png(rows, 40, 20, 2))
        self.assertEqual(pixels, sized([[color for _, color in row] for row in rows], 2))

    def test_a_damaged_picture_is_not_read(self):
        data = bytearray(write_png([[(2, '336698')]], 2, 1))
        data[-20] ^= 1
        with self.assertRaises(ValueError):
            read_png(bytes(data))

    def test_blocks_have_two_rows_a_line(self):
        for name in ('views.report', 'painters.report', 'press.report'):
            with self.subTest(name=name):
                wanted = rows_of_text(bytes_of(name))
                self.assertEqual(pixels_of(blocks(read_report(bytes_of(name)).rows)), wanted)


def pixels_of(text):
    """The rows of pixels that a terminal would show."""
    rows = []
    for line in text.split('\n')[:-1]:
        upper, lower, colors = [], [], (None, None)
        for code, block in re.findall(r'\x1b\[([0-9;]*)m|(\u2580)', line):
            if block:
                upper.append(colors[0])
                lower.append(colors[1])
            else:
                colors = colors_of(code)
        rows.append(upper)
        if any(lower):
            rows.append(lower)
    return rows


def colors_of(code):
    found = re.findall(r'([34])8;2;(\d+);(\d+);(\d+)', code)
    colors = {kind: '%02x%02x%02x' % tuple(map(int, rgb)) for kind, *rgb in found}
    return colors.get('3'), colors.get('4')


if __name__ == '__main__':
    unittest.main()
