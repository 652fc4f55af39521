# Our answers, as `ask` and real/parts tell them, as plain values.
import re

from against import PARTS, WIDTH

# What `open` tells, in the order of its answer.
FIVE = ['Info', *PARTS]
OPENED = re.compile('heads (\\d+) ' + ' '.join('%s (.*)' % label.lower() for label in FIVE))


class Row:
    def __init__(self, words):
        self.id = int(words[0], 16)
        self.parent, self.at, self.header, self.payload, self.kind, self.depth, self.after = map(int, words[1:WIDTH])

    def numbers(self):
        return self.id, self.parent, self.at, self.header, self.payload, self.kind, self.depth, self.after

    def start(self):
        return self.at + self.header

    def end(self):
        return self.at + self.header + self.payload


class Part:
    """Our answer for one part: found, absent or refused."""

    def __init__(self, answer):
        self.answer, self.rows, self.refused, self.at, self.size, self.heads = answer, [], None, None, None, None
        self.refused_at = None
        head, *rows = answer.split(' / ')
        words = head.split()
        if words[0] == 'refused':
            # For 8 an id stands before the address where it broke: refused 8 ID at A.
            self.refused, self.refused_at = int(words[1]), int(words[words.index('at') + 1])
            return
        self.heads = int(words[words.index('heads') + 1])
        if words[0] == 'at':
            self.at, self.size = int(words[1]), int(words[3])
        count = int(words[words.index('rows') + 1])
        # The last row is followed by ' rest 0'.
        self.rows = [Row(row.split()) for row in rows]
        self.told = count

    def found(self):
        return self.at is not None

    def place(self):
        """Where the payload is, or None where the part is absent."""
        return (self.at, self.size) if self.found() else None


class Opened:
    """Our answer to `open`: refused, or five parts by label."""

    def __init__(self, answer):
        self.answer, self.refused, self.refused_at, self.heads, self.parts = answer, None, None, None, {}
        words = answer.split(' ')
        if words[0] == 'refused':
            self.refused, self.refused_at = int(words[1]), int(words[words.index('at') + 1])
            return
        heads, *told = OPENED.fullmatch(answer).groups()
        self.heads = int(heads)
        for label, part in zip(FIVE, told):
            self.parts[label] = Part(part.replace(' rows ', ' heads %s rows ' % heads, 1))

    def fault(self):
        return None if self.refused is None else (self.refused, self.refused_at)


def ranged(word):
    """ADDRESS+LENGTH, or None for unset."""
    return None if word == 'unset' else tuple(map(int, word.split('+')))


def number(word):
    return None if word == 'unset' else {'yes': 1, 'no': 0}.get(word, int(word) if word.isdigit() else None)
