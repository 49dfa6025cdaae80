"""Benches: without a compiler each that has a C program beside it ends with 1, and says which."""
import pathlib
import re
import subprocess
import sys
import tempfile
import unittest

from tests.reading import TOP

BENCHES = pathlib.Path(TOP, 'bench')


def peers():
    """The C program of each bench that has one."""
    texts = {path.name: path.read_text() for path in BENCHES.iterdir()
             if path.is_file() and not path.suffix}
    found = {name: re.search(r"measure\.peer\('(\w+)'", text) for name, text in texts.items()}
    return {name: peer[1] for name, peer in found.items() if peer}


class Benches(unittest.TestCase):
    def test_without_a_compiler(self):
        self.assertEqual(len(peers()), 14)
        with tempfile.TemporaryDirectory() as empty:
            for name, peer in peers().items():
                with self.subTest(bench=name):
                    ran = subprocess.run([sys.executable, '-B', BENCHES / name],
                                         env={'PATH': empty}, capture_output=True, text=True)
                    due = 'the C program %s is wanting: it could not be compiled\n' % peer
                    self.assertEqual((ran.returncode, ran.stdout, ran.stderr), (1, '', due))


if __name__ == '__main__':
    unittest.main()
