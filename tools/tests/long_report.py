"""A report of as many entries as are wanted, in the form of one: two windows whose loopers take
what an application posts, and twins that execute what it draws."""


def long_report(entries):
    """The bytes of a report of so many entries, up to nine fewer."""
    lines, traces = [], {'a': [], 'b': []}

    def add(text):
        lines.append(f'{len(lines) + 1} {text}')

    number = 0
    while len(lines) + 9 < entries:
        number += 1
        window = 'ab'[number % 2]
        own = (number + 1) // 2
        for text in (f'app:m post {window} ok {own}', f'app:m lock {window}',
                     f'app:m draw {window} {own}', f'app:m flush {window} 1',
                     f'app:m unlock {window}', f'twin:{window} exec {own} done',
                     f'loop:{window} take {own}', f'loop:{window} end none'):
            add(text)
        traces[window].append(f'take {own} app:m 0 PING window - n=LONG:{number}')
    add('stop stop')
    rows = [f'{y} 16x336698 16x{y:02x}a0c0' for y in range(24)]
    noted = ['app m', 'loop a', *traces['a'], 'loop b', *traces['b']]
    return '\n'.join([f'history {len(lines)}', *lines, 'traces', *noted, 'screen 32 24', *rows,
                      'end', '']).encode('ascii')
