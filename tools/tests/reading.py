"""What the tests of the tools share."""
import glob
import os
import re

TOP = os.path.dirname(os.path.dirname(os.path.dirname(os.path.abspath(__file__))))
EXAMPLES = os.path.join(TOP, 'examples')


def bytes_of(name):
    with open(os.path.join(EXAMPLES, name), 'rb') as file:
        return file.read()


def _names(ending):
    return sorted(os.path.basename(path) for path in glob.glob(os.path.join(EXAMPLES, ending)))


def report_names():
    """The files of examples/ with a report."""
    return _names('*.report')


def picture_names():
    """Those with a picture."""
    return _names('*.png')


def script_name(report):
    """The script's file of a report's: NAME.report and NAME.S.report are of NAME.script."""
    return re.sub(r'(\.\d+)?\.report\Z', '.script', report)


def rows_of_text(data):
    """The screen of a report by a reader of its own: rows of pixels, each six digits."""
    text = data.decode('ascii')
    lines = text[text.index('\nscreen ') + 1:].split('\n')
    rows = []
    for line in lines[1:lines.index('end')]:
        runs = [word.split('x') for word in line.split(' ')[1:]]
        rows.append([color for count, color in runs for _ in range(int(count))])
    return rows


def entries_of_text(data):
    """The lines of a report's entries by a reader of its own, without their numbers."""
    lines = data.decode('ascii').split('\n')
    return [line.split(' ', 1)[1] for line in lines[1:1 + int(lines[0].split(' ')[1])]]
