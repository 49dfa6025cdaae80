"""Files and standard streams as the tools name them: `-` is standard input or output."""
import sys


def read_bytes(name):
    if name == '-':
        return sys.stdin.buffer.read()
    with open(name, 'rb') as file:
        return file.read()


def write_bytes(name, data):
    if name == '-':
        sys.stdout.buffer.write(data)
        sys.stdout.buffer.flush()
        return
    with open(name, 'wb') as file:
        file.write(data)


def fail(tool, fault):
    """Says on standard error why a tool ends; its exit status."""
    print(f'{tool}: {fault}', file=sys.stderr)
    return 1
