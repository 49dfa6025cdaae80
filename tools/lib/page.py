"""One page of a report, which needs nothing beside itself."""
import base64
import hashlib
import html
import json
import os
import re

from lib.links import links_of

PARTS = os.path.join(os.path.dirname(os.path.dirname(os.path.abspath(__file__))), 'page_parts')
SCRIPTS = ('model.js', 'history.js', 'screen.js', 'main.js')
KINDS = ('letter', 'command', 'answer')


def _part(name):
    with open(os.path.join(PARTS, name), encoding='utf-8') as file:
        return file.read()


def _runs(rows):
    """Rows of runs as one list: a count, a value, a count, and so on."""
    flat = []
    for row in rows:
        for count, value in row:
            flat += [count, value]
    return flat


def _runs_of_pixels(rows):
    runs = []
    for row in rows:
        start = 0
        for x in range(1, len(row) + 1):
            if x == len(row) or row[x] != row[start]:
                runs += [x - start, row[start]]
                start = x
    return runs


def _screen(report, followed):
    palette = sorted({color for row in report.rows for _, color in row})
    numbers = {color: at for at, color in enumerate(palette)}
    colors = _runs([[(count, numbers[color]) for count, color in row] for row in report.rows])
    return {
        'width': report.width,
        'height': report.height,
        'palette': palette,
        'colors': colors,
        'changed': _runs_of_pixels(followed.changed) if followed else None,
    }


def page_data(report, followed=None):
    """What the page's script is given of a report, and of its history as it was followed through
    the script."""
    activities = report.activities()
    lanes = {word: at for at, word in enumerate(activities)}
    links = links_of(report.entries)
    return {
        'activities': activities,
        'windows': report.windows,
        'entries': '\n'.join(f'{lanes[entry.actor]} {entry.text}' for entry in report.entries),
        'noted': {entry.number: entry.noted for entry in report.entries if entry.noted},
        'commands': followed.commands if followed else {},
        'linkKinds': KINDS,
        'links': {
            'kind': ''.join(str(KINDS.index(kind)) for kind, _, _ in links),
            'from': [start for _, start, _ in links],
            'to': [end for _, _, end in links],
        },
        'screen': _screen(report, followed),
    }


def _json_in_html(data):
    """JSON without a character that could end the element that it stands in."""
    text = json.dumps(data, separators=(',', ':'), ensure_ascii=True)
    return text.replace('&', '\\u0026').replace('<', '\\u003c').replace('>', '\\u003e')


def _hash(text):
    digest = hashlib.sha256(text.encode('utf-8')).digest()
    return "'sha256-" + base64.b64encode(digest).decode('ascii') + "'"


def write_page(report, title, followed=None):
    """The text of the page. Nothing of the report is read as HTML, and no script runs but the
    page's own."""
    script = '\n'.join(_part(name) for name in SCRIPTS)
    style = _part('page.css')
    policy = ("default-src 'none'; base-uri 'none'; form-action 'none'; "
              f'style-src {_hash(style)}; script-src {_hash(script)}')
    texts = {
        'title': html.escape(title),
        'style': style,
        'policy': html.escape(policy),
        'data': _json_in_html(page_data(report, followed)),
        'script': script,
    }
    return re.sub(r'\{\{(\w+)\}\}', lambda match: texts[match.group(1)], _part('page.html'))
