# One recording, held against the tools: what differs with a named reason, and what is wrong. The parts and their
# places are compared here; compare.py and stages.py compare the rest.
import collections
import os
import re

from tools import Tools, time_of

# The most rows of a table, and how many numbers a row has (docs/ASK.md).
ROWS = 4096
WIDTH = 8
PARTS = collections.OrderedDict([
    ('Tracks', (0x1654AE6B, 0xAE)), ('Attachments', (0x1941A469, 0x61A7)), ('Chapters', (0x1043A770, 0x45B9)),
    ('Tags', (0x1254C367, 0x7373))])
# The parent id that each part is read under. Info is none of the four that the search takes.
INFO = 0x1549A966
UNDER = {'Info': INFO, **{label: parent for label, (_, parent) in PARTS.items()}}
# The ids that are binary for the crate and for us, though Matroska gives them another type (docs/DIFFERENCES.md).
PLAIN = {0x55AB, 0x55AC, 0x55AD, 0x55AE, 0x55AF, 0x41F0, 0x41E7, 0x44B4, 0x4588, 0x47E8, 0x52F1, 0x7671, 0x41E4, 0x7670,
         0x47E7, 0x4520, 0x41A4, 0x45E4, 0x4521, 0x7673, 0x7674, 0x7675}
# Matroska's default values (RFC 9559), which a tool may show for an element that is not there.
DEFAULTS = {'TargetTypeValue': 50, 'EditionFlagHidden': 0, 'EditionFlagDefault': 0, 'EditionFlagOrdered': 0,
            'ChapterFlagHidden': 0, 'ChapterFlagEnabled': 1, 'DefaultLanguage': 1, 'SamplingFrequency': 8000.0,
            'Channels': 1, 'enabled': 1, 'default': 1, 'forced': 0, 'Language': 'eng'}

REASONS = collections.OrderedDict([
    ('crc-32', 'mkvinfo does not show CRC-32 elements; ours are rows. Each is the first in its master, and its value '
               'is the checksum of what follows it there'),
    ('plain bytes', 'an id that Matroska gives a type and the crate none: binary for us'),
    ('plain master', 'a master that is plain bytes for us: mkvinfo shows its children, we have no rows for them'),
    ('hidden', 'the part stands in the segment, and no seek head that is reached names it: absent for us'),
    ('written twice', 'mkvinfo shows the part more than once; ours is the one that the seek head names, or the first, '
                      'of Info the last, where no seek head comes before it'),
    ('unknown size', 'no seek head, and a Cluster of unknown size before the part, or no such part: the size is a '
                     'plain number, which leads out of the segment (refused 3) or out of the recording (refused 1)'),
    ('unknown size, short', 'the same, and the plain number leads to a place inside the Cluster, where we read on: '
                            'refused by what is met there, or found where there is no such part'),
    ('open end', 'no seek head, and no end of the segment in the recording: its size is unknown, or the recording is '
                 'cut off. A part that is not met is refused 1, and the tools show none'),
    ('rows', 'the part has more elements than the largest table has rows: refused 13'),
    ('stale', 'the seek entry leads to no such element: refused 9, or 1, 2 or 3 where no header can be read there'),
    ('cut off', 'the seek entry leads past the end of the recording: refused 1'),
    ('unfilled', 'the seek entry was reserved and never filled in: its position is all ones, refused 8'),
    ('no size', 'the segment says that it has no bytes: the parts behind it are absent for us, and mkvinfo shows them '
                'as elements at an invalid position'),
    ('default', 'the tool shows Matroska\'s default for an element that mkvinfo does not show; ours is unset'),
    ('zero bytes', 'the text has a zero byte, before which the tools end it; the rows, values and records of ours have '
                   'all of it'),
    ('marks', 'a mark of a track, 55AB to 55AF, is plain bytes for us: unset in the record, and mkvmerge shows it'),
    ('languages', 'a display, simple tag or track has several languages; ours is the last IETF one, or the last ISO '
                  'one'),
    ('nested', 'atoms in an atom or simple tags in a simple tag, which the records pass over; the rows have them'),
    ('description', 'mkvmerge shows an empty description where there is none; ours is unset'),
    ('empty name', 'mkvmerge shows no name for a track whose name is an empty text'),
    ('ffprobe: editions', 'ffprobe leaves out a chapter that does not start after all before it'),
    ('ffprobe: name', 'ffprobe shows the name of the last display of several'),
    ('ffprobe: end', 'ffprobe fills in the end of a chapter that has none'),
    ('ffprobe: uid', 'ffprobe shows a uid of 2^63 or more as a negative number'),
    ('ffprobe: opus', 'ffprobe shows 48,000 Hz for Opus, whatever rate the track tells'),
    ('no duration', 'the duration of Info is 0, as a stopped recorder leaves it: mkvmerge and ffprobe show none'),
    ('ffprobe: tag', 'ffprobe shows the tag TITLE or ENCODER in place of the title or the muxing application of Info'),
    ('ffprobe: duration', 'Info has no duration, and ffprobe shows what it reckons from the rest of the recording'),
    ('open: last', 'the part is there more than once before a seek head: `open` has the last, the search the first'),
    ('open: replaced', 'the part was met before the first seek head, and the heads name another, which `open` has; the '
                       'search has the first'),
    ('open: refused', 'one fault refuses all of `open`: of those above, or of Info; the search finds what is not at '
                      'fault'),
])


def before_zero(payload):
    """What is shown of a text: its payload before the first zero byte, or all of it where there is none."""
    return payload.split(b'\0', 1)[0]


def shown_number(shown):
    """The number that mkvinfo shows of an element, or None where its text does not begin with one."""
    clock = re.match(r'^(\d\d+:\d\d:\d\d\.\d{9})( |$)', shown.value or '')
    plain = re.match(r'^(-?\d+)( |$)', shown.value or '')
    return time_of(clock.group(1)) if clock else int(plain.group(1)) if plain else None


class Tally:
    """The findings of all recordings by reason, and what was compared. Each finding is a line of the log."""

    def __init__(self, log):
        self.log, self.unexplained = log, 0
        self.totals, self.reasons, self.files = collections.Counter(), collections.Counter(), collections.Counter()

    def add(self, one):
        self.totals.update(one.counts)
        for reason, what in one.findings:
            self.reasons[reason] += 1
            self.log.write('%s\t%s\t%s\n' % (reason, one.name, what))
        for reason in {reason for reason, _ in one.findings}:
            self.files[reason] += 1
        for what in one.wrong:
            self.log.write('UNEXPLAINED\t%s\t%s\n' % (one.name, what))
            print('  UNEXPLAINED ' + what[:400])
        self.unexplained += len(one.wrong)

    def tell(self):
        print('findings by reason:')
        for reason in REASONS:
            if self.reasons[reason]:
                print('  %s: %d in %d recordings' % (reason, self.reasons[reason], self.files[reason]))
        print('compared: ' + ', '.join('%s %d' % (name, self.totals[name]) for name in sorted(self.totals)))

    def findings(self):
        return sum(self.reasons.values())


class Against:
    """One recording, what the tools say of it, and what was found so far."""

    def __init__(self, name, folder, said=None):
        self.name, self.path = name, os.path.join(folder, name)
        self.tools = said or Tools(self.path, os.path.join(folder, 'extracted'))
        with open(self.path, 'rb') as file:
            self.bytes = file.read()
        self.counts, self.findings, self.wrong = collections.Counter(), [], []

    def find(self, reason, what):
        assert reason in REASONS
        self.findings.append((reason, what))

    def fail(self, what):
        self.wrong.append(what)

    def same(self, what, ours, theirs, count=None):
        if count:
            self.counts[count] += 1
        if ours != theirs:
            self.fail('%s: ours %r, the tools %r' % (what, ours, theirs))
        return ours == theirs

    def text(self, spot):
        return self.bytes[spot[0]:spot[0] + spot[1]]

    def payload(self, element):
        """The bytes of mkvinfo's element behind its header."""
        return self.text((element.at + element.header(), element.data))

    def children(self, element, label):
        return [e for e in element.children if e.label == label]

    # ---- The parts ----

    def stands_for(self, shown, heads, named, opened):
        """Of several the one that counts, as its address: that of the last entry. Where no seek head comes before them
        the search has the first; `open` has the last before the head, if that names none."""
        if opened:
            return named if named is not None else [e.at for e in shown if not heads or e.at < heads[0].at][-1]
        return named if heads and heads[0].at < shown[0].at else shown[0].at

    def place(self, label, part, opened=False):
        """Found or not, and where, against mkvinfo's elements and seek entries. Answers mkvinfo's element. `opened`: it
        is a part of `open`."""
        info, ident = self.tools.info, PARTS[label][0]
        shown = info.level1(label)
        heads = info.heads()
        entries = [where for head in heads for number, where in info.entries(head) if number == ident]
        # An entry of the last head reached wins, and the last in it.
        named = entries[-1] if entries else None
        self.counts['parts'] += 1
        # A part that stands in front of the first head is found without it.
        before = heads and (not shown or heads[0].at < shown[0].at)
        if part.refused is None:
            self.same('%s: count of seek heads' % label, part.heads, len(heads) if before or opened else 0)
        if part.found():
            matching = [e for e in shown if (e.at + e.header(), e.data) == (part.at, part.size)]
            if not matching and self.open_cluster(label, part, shown, heads):
                self.counts['parts with a reason'] += 1
                self.find(*self.open_cluster(label, part, shown, heads)[:2])
                return None
            if not matching:
                self.fail('%s: ours at %d size %d, mkvinfo has %r' % (label, part.at, part.size,
                                                                     [(e.at + e.header(), e.data) for e in shown]))
                return None
            element = matching[0]
            if len(shown) > 1:
                if element.at == self.stands_for(shown, heads, named, opened):
                    self.find('written twice', '%s at %r, ours %d' % (label, [e.at for e in shown], element.at))
                else:
                    self.fail('%s is there more than once, and ours is not the one named' % label)
            self.counts['parts found'] += 1
            return element
        if part.refused is None and not shown and not self.open_cluster(label, part, shown, heads):
            if self.misplaced(label):
                self.no_size(label)
                return None
            self.counts['parts absent'] += 1
            return None
        cause = self.cause(label, part, shown, heads, entries, named)
        if cause:
            reason, what, due = cause
            self.counts['parts with a reason'] += 1
            self.find(reason, what)
            if due is not None:
                self.same('%s: where it broke' % label, part.refused_at, due, 'addresses of refusals')
        else:
            self.fail('%s: ours %s; mkvinfo shows it at %r, seek entries lead to %r, and there is no cause' %
                      (label, part.answer[:20], [e.at for e in shown], entries))
        return None

    def cause(self, label, part, shown, heads, entries, named):
        """Why a part is not found that mkvinfo shows, or is refused: the reason, its facts and the address where it
        broke, None where there is none or mkvinfo does not tell it; or None."""
        length = len(self.bytes)
        if part.refused is None and shown and heads and heads[0].at < shown[0].at and not entries:
            return 'hidden', '%s at %d; the seek heads at %r name it nowhere; %s' % (
                label, shown[0].at, [h.at for h in heads], self.who_finds(label)), None
        if part.refused == 13 and shown and len(list(shown[0].below())) > ROWS:
            below = list(shown[0].below())
            return 'rows', '%s: %d elements' % (label, len(below)), below[ROWS].at
        if named is not None and named < length and named not in [e.at for e in shown] and \
                part.refused == (self.header_fault(named) or 9):
            return 'stale', '%s: the entry leads to %d, it is at %r; %s' % (
                label, named, [e.at for e in shown], self.who_finds(label)), named
        if part.refused == 8 and named is not None and named - self.tools.info.start() == 2 ** 64 - 1:
            # The last head that was read.
            return 'unfilled', '%s: the position is all ones; it is at %r' % (label, [e.at for e in shown]), \
                heads[-1].at
        if part.refused == 1 and named is not None and named >= length:
            return 'cut off', '%s: the entry leads to %d of %d bytes' % (label, named, length), named
        info = self.tools.info
        endless = info.segment.data is None or info.start() + info.segment.data > length
        if part.refused == 1 and not heads and not shown and endless and all(e.size for e in info.level1()):
            return 'open end', '%s: the segment has %s bytes, the recording ends at %d' % (
                label, info.segment.data or 'unknown', length), max([info.start(), *(e.end() for e in info.level1())])
        return self.open_cluster(label, part, shown, heads)

    def misplaced(self, label):
        """The parts that mkvinfo shows where it expects none: behind a segment of no bytes."""
        return [e for e in self.tools.info.level1() if e.label.startswith('(Known element') and
                (e.value or '').startswith(label + ';')]

    def no_size(self, label):
        info = self.tools.info
        if info.segment.data == 0 and info.start() < len(self.bytes):
            self.counts['parts with a reason'] += 1
            self.find('no size', '%s at %d; %s' % (label, self.misplaced(label)[0].at, self.who_finds(label)))
        else:
            self.fail('%s: ours absent, mkvinfo shows it at %d' % (label, self.misplaced(label)[0].at))

    def header_fault(self, at):
        """What is wrong with the bytes as a header: 1, 2, 3, or None where they are one."""
        for most, fault in ((3, 2), (7, 3)):
            rest = self.bytes[at:at + 16]
            zeros = 8 * len(rest) - int.from_bytes(rest, 'big').bit_length()
            if zeros == 8 * len(rest) and at + len(rest) == len(self.bytes):
                return 1
            if zeros > most:
                return fault
            at += zeros + 1
            if at > len(self.bytes):
                return 1
        return None

    def open_cluster(self, label, part, shown, heads):
        """The first element of unknown size, where neither a seek head nor the part comes before it, ends the search:
        its size of n bytes is a plain number to us, 2^7n - 1. Answers as `cause` does."""
        info = self.tools.info
        unknown = [e for e in info.level1() if e.size is None]
        if not unknown or (heads and heads[0].at < unknown[0].at) or (shown and shown[0].at < unknown[0].at):
            return None
        cluster = unknown[0]
        size = 9 - self.bytes[cluster.at + 4].bit_length()
        after = cluster.at + 4 + size + 2 ** (7 * size) - 1
        what = '%s: %s at %d, a size of %d bytes' % (label, cluster.label, cluster.at, size)
        # A segment of unknown size has 2^56 - 1 bytes to us.
        end = info.start() + (2 ** 56 - 1 if info.segment.data is None else info.segment.data)
        if after > end:
            return ('unknown size', what, cluster.at) if part.refused == 3 else None
        if after >= len(self.bytes):
            return ('unknown size', what, after) if part.refused == 1 else None
        if part.found() and part.at < after:
            return None
        return 'unknown size, short', '%s: %s' % (what, part.answer.split(' rest')[0].split(' table')[0]), None

    def who_finds(self, label):
        """Which of the tools show the part: for the reader of the findings."""
        said, probed = self.tools, self.tools.probed
        streams = [s for s in probed.get('streams', []) if (s.get('codec_type') == 'attachment') == (label != 'Tracks')]
        shown = {'Tracks': [('mkvmerge', said.identified.get('tracks')), ('ffprobe', streams)],
                 'Attachments': [('mkvmerge', said.identified.get('attachments')), ('ffprobe', streams)],
                 'Chapters': [('mkvextract', said.chapters is not None), ('ffprobe', probed.get('chapters'))],
                 'Tags': [('mkvextract', said.tags is not None)]}[label]
        out = ', '.join('%s %s it' % (tool, 'shows' if found else 'does not show') for tool, found in shown)
        return out if said.extracts else out + ', mkvextract gives up'
