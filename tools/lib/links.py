"""Which entry of a history leads to which other one, by the entries alone.

- A letter leads from what had it accepted (a post, an event, a notice) to the take of its number.
- A command leads from the draw of its number to its execution.
- An answer leads from the reply, or from the end that tells of none, to the claim of who waited.

Letters and commands are found by their numbers. An answer goes to the application whose post is at
the root of the letter in hand: a forward hands the duty to answer on, and an answer is accepted
only where it is owed.
"""
from lib.report import letters_of

ANSWERS = {('reply', 'ok'), ('end', 'noreply'), ('end', 'unknown')}


class _Joining:
    """What is known of a history up to an entry."""

    def __init__(self):
        self.links = []
        self.accepted = {}  # letter: the entry that had it accepted
        self.drawn = {}     # command: the entry that drew it
        self.root = {}      # letter: the entry without letter in hand from which it comes
        self.hand = {}      # looper: the letter in its hand
        self.sent = {}      # application: its last post that was accepted
        self.answers = {}   # post: the entry that answered it

    def letters(self, entry):
        hand = self.hand.get(entry.actor)
        for letter in letters_of(entry):
            self.accepted[letter] = entry.number
            self.root[letter] = self.root[hand] if hand else entry.number
            if entry.actor.startswith('app:'):
                self.sent[entry.actor] = entry.number

    def take(self, entry):
        letter = (entry.actor[5:], int(entry.words[1]))
        self.hand[entry.actor] = letter
        self.link('letter', self.accepted.get(letter), entry)

    def answer(self, entry):
        hand = self.hand.get(entry.actor)
        if hand in self.root:
            self.answers[self.root[hand]] = entry.number

    def claim(self, entry):
        self.link('answer', self.answers.get(self.sent.get(entry.actor)), entry)

    def link(self, kind, start, entry):
        if start is not None:
            self.links.append((kind, start, entry.number))

    def follow(self, entry):
        self.letters(entry)
        if entry.kind == 'take':
            self.take(entry)
        elif entry.kind == 'draw':
            self.drawn[entry.words[1], entry.words[2]] = entry.number
        elif entry.kind == 'exec':
            self.link('command', self.drawn.get((entry.actor[5:], entry.words[1])), entry)
        elif entry.kind == 'claim':
            self.claim(entry)
        if tuple(entry.words) in ANSWERS:
            self.answer(entry)
        if entry.kind == 'end':
            self.hand.pop(entry.actor, None)


def links_of(entries):
    """All links of a history, as triples of a kind (`letter`, `command`, `answer`), the number of
    the entry from which it leads and that of the one to which it leads, in the order of the
    latter."""
    joining = _Joining()
    for entry in entries:
        joining.follow(entry)
    return joining.links
