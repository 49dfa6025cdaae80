"""The crates of this repository, as crates.txt has them: rooms, and what each stands on."""
import re


class Crates:
    """Rooms in their order, each a list of names; and of each crate those of this repository on
    which it stands."""

    def __init__(self, text):
        self.rooms = {}
        self.below = {}
        room = None
        for line in text.split('\n'):
            head = re.match(r'# ([a-z][a-z ]*)', line)
            if head:
                room = self.rooms.setdefault(head.group(1).strip(), [])
            elif ':' in line and not line.startswith('#'):
                name, rest = line.split(':')
                room.append(name.split(' ')[0])
                self.below[name.split(' ')[0]] = rest.split()
        for name, below in self.below.items():
            self.below[name] = [other for other in below if other in self.below]
        self.rooms = {room: names for room, names in self.rooms.items() if names}

    def all_below(self, name):
        """The crates on which a crate stands, whether or not by others."""
        found, ahead = set(), list(self.below[name])
        while ahead:
            other = ahead.pop()
            if other not in found:
                found.add(other)
                ahead += self.below[other]
        return found

    def next_below(self, name):
        """Those of them on which no other one of them stands."""
        own = self.all_below(name)
        return sorted(other for other in own
                      if not any(other in self.all_below(third) for third in own))

    def level(self, name, among):
        """How many crates lie below it, one on the other, of some."""
        return max((1 + self.level(other, among) for other in self.below[name] if other in among),
                   default=0)
