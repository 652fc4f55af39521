# The whole recording at once: what `open` tells, in both modes, against mkvinfo's facts and beside the four searches,
# and the record of Info against mkvinfo, mkvmerge and ffprobe. compare.py has these for each recording.
import datetime
import struct

from against import INFO, PARTS, ROWS, shown_number
from answers import FIVE, Opened, Part
from tools import time_of

# mkvinfo's label and the id of each of the five.
LABELS = {label: label if label in PARTS else 'Segment information' for label in FIVE}
IDS = {label: PARTS[label][0] if label in PARTS else INFO for label in FIVE}
# Dates count from here.
EPOCH = datetime.datetime(2001, 1, 1)
SECOND = 10 ** 9
# The record's texts and uids: our word, mkvinfo's label, and mkvmerge's name.
TEXTS = [('title', 'Title', 'title'), ('muxing', 'Multiplexing application', 'muxing_application'),
         ('writing', 'Writing application', 'writing_application')]
UIDS = [('uid', 'Segment UID', 'segment_uid'), ('previous', 'Previous segment UID', 'previous_segment_uid'),
        ('next', 'Next segment UID', 'next_segment_uid')]


class Due:
    """What mkvinfo's facts make of `open`: an element for each part that is there, and the count of heads; or a refusal
    with its reason, and the label of the part that is at fault, if it is one. A number or address is None where mkvinfo
    does not tell it."""

    def __init__(self, elements=None, heads=None, reason=None, what='', refused=None, at=None, label=None):
        self.elements, self.heads, self.reason, self.what = elements, heads, reason, what
        self.refused, self.at, self.label = refused, at, label


def cut_to(number, step):
    """Whole steps of a number of nanoseconds, cut towards 0 as the tools cut."""
    return abs(number) // step * (1 if number >= 0 else -1)


def moment(text, form):
    """A date as nanoseconds since 2001; None for none."""
    if text is None:
        return None
    since = datetime.datetime.strptime(text, form) - EPOCH
    return (since.days * 86400 + since.seconds) * SECOND + since.microseconds * 1000


class Opening:
    """The methods of a comparison that tell what is due of `open`."""

    def read_fault(self, label, element):
        """The refusal of a part that has more elements than its table has rows, or is cut off; or None."""
        below = list(element.below())
        if len(below) > ROWS:
            return Due(reason='rows', what='%s: %d elements' % (label, len(below)), refused=13, at=below[ROWS].at,
                       label=label)
        if element.end() > len(self.bytes):
            return Due(reason='cut off', what='%s ends at %d' % (label, element.end()), refused=1, label=label)
        return None

    def overrun(self, label, element):
        """The refusal of a part that is met before a head and is larger than what the segment has left; or None."""
        segment = self.tools.info.segment
        if segment.data is None or element.end() <= segment.end():
            return None
        return Due(reason='overrun', what='%s ends at %d, the segment at %d' % (label, element.end(), segment.end()),
                   refused=3, at=element.at)

    def due(self, live):
        """The parts before the first seek head in the order of the file, then what the heads name."""
        info = self.tools.info
        if info.segment.data == 0:
            return Due({}, 0)
        heads, elements = info.heads(), {}
        for element in info.level1():
            if element.label == 'Seek head':
                break
            if element.size is None and not live:
                return self.walk_into(element)
            for label in (label for label in FIVE if LABELS[label] == element.label):
                fault = self.read_fault(label, element) or self.overrun(label, element)
                if fault:
                    return fault
                # Of two the last stands.
                elements[label] = element
        else:
            fault = self.walk_out(live)
            if fault:
                return fault
        return self.sought(heads, elements) or Due(elements, len(heads))

    def walk_into(self, cluster):
        """A Cluster of unknown size on the way: its size of n bytes is a plain number, 2^7n - 1."""
        segment = self.tools.info.segment
        size = 9 - self.bytes[cluster.at + 4].bit_length()
        after = cluster.at + 4 + size + 2 ** (7 * size) - 1
        what = '%s at %d, a size of %d bytes' % (cluster.label, cluster.at, size)
        end = self.tools.info.start() + (2 ** 56 - 1 if segment.data is None else segment.data)
        if after > end:
            return Due(reason='unknown size', what=what, refused=3, at=cluster.at)
        if after >= len(self.bytes):
            return Due(reason='unknown size', what=what, refused=1, at=after)
        return Due(reason='unknown size, short', what=what)

    def walk_out(self, live):
        """No seek head, and the segment does not end in the recording: refused where the next header would begin. In
        live mode a segment of unknown size ends with the recording."""
        info, length = self.tools.info, len(self.bytes)
        ends = max([info.start(), *(e.end() for e in info.level1() if e.size is not None)])
        if info.segment.data is None and live and ends <= length:
            return None
        if info.segment.data is None or info.start() + info.segment.data > length:
            return Due(reason='open end', what='the segment has %s bytes, the recording ends at %d' % (
                info.segment.data or 'unknown', length), refused=1, at=ends)
        return None

    def sought(self, heads, elements):
        """What the seek heads name replaces what was met before them, in the order of the five; or a refusal."""
        info, length = self.tools.info, len(self.bytes)
        entries = [entry for head in heads for entry in info.entries(head)]
        for label in FIVE:
            named = [where for number, where in entries if number == IDS[label]][-1:]
            if not named:
                continue
            where, what = named[0], '%s: the entry leads to %d' % (label, named[0])
            there = [e for e in info.level1(LABELS[label]) if e.at == where]
            if where - info.start() == 2 ** 64 - 1:
                return Due(reason='unfilled', what=what, refused=8, at=heads[-1].at, label=label)
            if where >= length:
                return Due(reason='cut off', what=what, refused=1, at=where, label=label)
            if not there:
                return Due(reason='stale', what=what, refused=self.header_fault(where) or 9, at=where, label=label)
            fault = self.read_fault(label, there[0])
            if fault:
                return fault
            elements[label] = there[0]
        return None


class Whole(Opening):
    """The methods of a comparison for `open` and for Info."""

    # ---- `open` ----

    def ask_open(self, live, numbers):
        """Our answer, in words. Where `ask` takes the recording, it and the C face say the same."""
        word = 'live open' if live else 'open'
        faced = self.run_parts(self.path, '--open', *(['--live'] if live else [])).rstrip('\n')
        if self.small:
            answer = self.asker('%s %s %s' % (word, ' '.join([str(numbers)] * len(FIVE)), self.digits))
            self.same('%s by the C face' % word, self.change(word + ' by the C face', faced), answer, 'by the C face')
        return faced

    def searched(self, live, numbers, parts):
        """The answers of the four searches in that mode."""
        if not live:
            return parts
        if self.small:
            return {label: Part(self.asker('live part %X %d %s' % (ident, numbers, self.digits)))
                    for label, (ident, _) in PARTS.items()}
        lines = self.run_parts(self.path, '--live').splitlines()
        return {label: Part(line.split(' ', 2)[2]) for label, line in zip(PARTS, lines)}

    def opened(self, parts, numbers):
        """`open` in both modes. Answers the part of Info, by either, or by its read where both are refused, and
        mkvinfo's element; or None."""
        answers = [self.ask_open(live, numbers) for live in (False, True)]
        # Where no size is unknown, both modes say the same.
        info = self.tools.info
        if all(e.size is not None for e in [info.segment, *info.level1()]):
            self.same('live open as open', self.change('both modes', answers[1]), answers[0], 'equal in both modes')
        both = []
        for live, word in enumerate(('open', 'live open')):
            got = Opened(self.change(word, answers[live]))
            both.append(got)
            due, searches = self.due(live), self.searched(live, numbers, parts)
            self.counts[word] += 1
            if got.refused is None:
                self.accepted(word, got, due, searches)
            else:
                self.refusal(word, got, due, searches)
        plain, live = (got.parts.get('Info') for got in both)
        if plain and live and plain.place() == live.place():
            self.same('live open: the rows of Info', [row.numbers() for row in live.rows],
                      [row.numbers() for row in plain.rows])
        return self.info_of(both, info.level1(LABELS['Info']), numbers)

    def info_of(self, both, shown, numbers):
        """The part of Info that one of the answers has, with mkvinfo's element; `shown` are all that mkvinfo has."""
        if self.misplaced(LABELS['Info']):
            self.find('no size', 'Info at %d' % self.misplaced(LABELS['Info'])[0].at)
        found = [got.parts['Info'] for got in both if got.refused is None and got.parts['Info'].found()]
        for part, element in ((part, element) for part in found for element in shown):
            if part.place() == (element.at + element.header(), element.data):
                if len(shown) > 1:
                    self.find('written twice', 'Info at %r, ours %d' % ([e.at for e in shown], element.at))
                return part, element
        if found or not shown:
            return None
        if any(got.refused is None for got in both):
            self.find('hidden', 'Info at %d, and no seek head names it' % shown[0].at)
        return self.read_info(shown[0], numbers), shown[0]

    def read_info(self, element, numbers):
        """Info, read where mkvinfo shows it."""
        answer = self.ask('read %d %d %X %d %s' % (element.at + element.header(), element.data, INFO, numbers,
                                                   self.digits), 'read') if self.small else 'not asked'
        if not answer.startswith('rows '):
            self.fail('Info by its read at %d: %s' % (element.at, answer[:60]))
            return None
        self.counts['info by its read'] += 1
        return Part('at %d size %d heads 0 %s' % (element.at + element.header(), element.data, answer))

    def accepted(self, word, got, due, searches):
        if due.reason:
            self.fail('%s: accepted; due is %r at %r, %s: %s' % (word, due.refused, due.at, due.reason, due.what))
            return
        self.counts[word + ' accepted'] += 1
        self.same('%s: count of seek heads' % word, got.heads, due.heads)
        for label, part in got.parts.items():
            element = due.elements.get(label)
            self.counts['parts of ' + word] += 1
            self.same('%s: %s: count of rows' % (word, label), len(part.rows), part.told)
            self.same('%s: %s: the rest of the table' % (word, label), part.answer.endswith(' rest 0'), True)
            self.same('%s: %s' % (word, label), part.place(),
                      element and (element.at + element.header(), element.data))
            if label in searches:
                self.beside(word, label, part, searches[label], element)

    def beside(self, word, label, part, search, element):
        """A part of `open` and the search's: one place and one table, or a reason."""
        what = '%s: %s beside the search' % (word, label)
        if search.refused is None and part.place() == search.place():
            self.same(what, [row.numbers() for row in part.rows], [row.numbers() for row in search.rows],
                      'as the search')
            # The search goes no further than its part, so it may have read no head.
            self.same(what + ': heads', search.heads in (0, part.heads), True)
            return
        info = self.tools.info
        head = next((e.at for e in info.level1('Seek head')), len(self.bytes))
        met = [e for e in info.level1(label) if e.at < head]
        places = [(e.at + e.header(), e.data) for e in info.level1(label)]
        named = [where for one in info.heads() for number, where in info.entries(one) if number == IDS[label]]
        if not part.found() or not met or search.place() != (met[0].at + met[0].header(), met[0].data):
            self.fail('%s: %r, and the search has %s' % (what, part.place(), search.answer[:40]))
            return
        if not self.same(what + ': one of them', part.place() in places, True):
            return
        self.rows(label, part, element)
        if named:
            self.find('open: replaced', '%s: %d, and the search has %d' % (what, part.at, search.at))
        else:
            self.find('open: last', '%s: %d, and the search has %d' % (what, part.at, search.at))

    def refusal(self, word, got, due, searches):
        """A refusal of `open`: what mkvinfo's facts make due, and one that the searches meet too, if they meet any."""
        if not due.reason:
            self.fail('%s: %s; by mkvinfo there is no fault' % (word, got.answer[:60]))
            return
        self.same('%s: the tables' % word, got.answer.endswith(' tables 0'), True)
        for theirs, ours in ((due.refused, got.refused), (due.at, got.refused_at)):
            if theirs is not None:
                self.same('%s: refused' % word, ours, theirs, 'refusals of open')
        if due.refused == 8:
            self.same('%s: the entry' % word, got.answer.split(' ')[2], '%X' % IDS[due.label])
        faults = {label: (part.refused, part.refused_at) for label, part in searches.items()
                  if part.refused is not None}
        if due.label in faults:
            self.same('%s: refused as the search' % word, got.fault(), faults[due.label], 'as a refused search')
        elif due.label is None and (faults or due.refused is None):
            # The way breaks for every part that is not met before.
            self.same('%s: refused as a search' % word, got.fault() in faults.values(), True, 'as a refused search')
        found = [label for label, part in searches.items() if part.found()]
        self.find('open: refused', '%s: %d at %d, %s: %s; the searches find %s' % (
            word, got.refused, got.refused_at, due.reason, due.what, ', '.join(found) or 'none'))

    # ---- Info ----

    def information(self, part, element):
        """The record of Info."""
        got = self.fields(part, 'info', 0)
        if not isinstance(got, dict):
            self.fail('Info: %s' % got)
            return
        self.counts['info'] += 1
        about = self.tools.identified.get('container', {}).get('properties', {})
        shown = self.tools.probed.get('format', {})
        for field, label, name in TEXTS:
            what, spot = 'Info %s' % field, None if got[field] == 'unset' else got[field]
            last = self.children(element, label)[-1:]
            self.same_place(what, got[field], element, label)
            self.same_text(what + ' by mkvinfo', spot, (last[0].value or '') if last else None)
            self.same_text(what, spot, about.get(name))
            self.counts['info texts'] += spot is not None
        for field, label, name in UIDS:
            self.uid('Info %s' % field, got[field], element, label, self.children(element, label)[-1:], about.get(name))
        self.families(part, element, got)
        self.scaled(got, element, about, shown)
        self.dated(got, element, about, shown.get('tags', {}))
        self.probed_tag('title', got['title'], shown.get('tags', {}))
        self.probed_tag('encoder', got['muxing'], shown.get('tags', {}))
        self.ends(part, 'Info', 'info', 1)
        self.in_live_mode(part)

    def uid(self, what, ours, element, label, last, name):
        self.same_place(what, ours, element, label)
        digits = None if ours == 'unset' else self.text(ours).hex()
        self.same(what + ' by mkvinfo', digits, last[0].value.replace('0x', '').replace(' ', '') if last else None)
        self.same(what, digits, name)
        self.counts['info uids'] += digits is not None

    def families(self, part, element, got):
        seen = self.children(element, 'Family UID')
        self.same('Info families', int(got['families']), len(seen))
        for i, one in enumerate(seen):
            told = self.fields(part, 'family', 0, i)
            what = 'Info family %d' % i
            if not isinstance(told, dict):
                self.fail('%s: %s' % (what, told))
                continue
            self.same(what + ' place', told['uid'], (one.at + one.header(), one.data), 'places')
            self.same(what, self.text(told['uid']).hex(), one.value.replace('0x', '').replace(' ', ''), 'families')
        self.ends(part, 'Info families', 'family', 0, len(seen))

    def scaled(self, got, element, about, shown):
        """Duration and scale: the float that stands at mkvinfo's place, and as nanoseconds what the tools show."""
        scale = None if got['scale'] == 'unset' else int(got['scale'])
        last = self.children(element, 'Timestamp scale')[-1:]
        self.same('Info scale', scale, shown_number(last[0]) if last else None, 'scales')
        last = self.children(element, 'Duration')[-1:]
        if not self.same('Info duration is set', got['duration'] != 'unset', bool(last)):
            return
        if not last:
            self.same('Info duration by mkvmerge', None, about.get('duration'))
            if 'duration' in shown:
                self.find('ffprobe: duration', shown['duration'])
            return
        ours, stored = struct.unpack('>d', bytes.fromhex(got['duration']))[0], self.payload(last[0])
        self.same('Info duration', ours, struct.unpack('>f' if len(stored) == 4 else '>d', stored)[0], 'durations')
        nanoseconds = int(ours * (10 ** 6 if scale is None else scale))
        self.same('Info duration by mkvinfo', nanoseconds, time_of(last[0].value))
        if ours == 0 and 'duration' not in about and 'duration' not in shown:
            self.find('no duration', 'at %d' % last[0].at)
            return
        self.same('Info duration by mkvmerge', nanoseconds, about.get('duration'))
        # ffprobe has whole microseconds.
        self.same('Info duration by ffprobe', nanoseconds // 1000, round(float(shown.get('duration', -1)) * 10 ** 6))

    def dated(self, got, element, about, tags):
        """The date: the signed number that stands at mkvinfo's place. mkvinfo and mkvmerge show whole seconds and
        ffprobe microseconds, each cut towards 2001."""
        last = self.children(element, 'Date')[-1:]
        if not self.same('Info date is set', got['date'] != 'unset', bool(last)):
            return
        if not last:
            self.same('Info date by mkvmerge and ffprobe', (None, None), (about.get('date_utc'),
                                                                        tags.get('creation_time')))
            return
        ours = int(got['date'])
        self.same('Info date', ours, int.from_bytes(self.payload(last[0]), 'big', signed=True), 'dates')
        seconds = cut_to(ours, SECOND) * SECOND
        self.same('Info date by mkvinfo', seconds, moment(last[0].value, '%Y-%m-%d %H:%M:%S UTC'))
        self.same('Info date by mkvmerge', seconds, moment(about.get('date_utc'), '%Y-%m-%dT%H:%M:%SZ'))
        self.same('Info date by ffprobe', cut_to(ours, 1000) * 1000, moment(tags.get('creation_time'),
                                                                        '%Y-%m-%dT%H:%M:%S.%fZ'))

    def probed_tag(self, name, ours, tags):
        """A text of Info as ffprobe shows it, among the recording's tags; a tag of that name takes its place."""
        key = next((key for key in tags if key.lower() == name), None)
        simples = [{e.label: e.value for e in one.children} for one in self.tools.info.segment.below()
                   if one.label == 'Simple']
        if key is not None and key != name and {'Name': key, 'String': tags[key]} in [
                {word: simple.get(word) for word in ('Name', 'String')} for simple in simples]:
            self.find('ffprobe: tag', '%s: %s' % (key, tags[key]))
        else:
            self.same_text('Info %s by ffprobe' % name, None if ours == 'unset' else ours, tags.get(name))

    def in_live_mode(self, part):
        """The record in live mode is the same: an Info that was read has no size that is unknown."""
        for words in (('info', 0), ('family', 0, 0)):
            plain, _ = self.record(part, *words)
            told, _ = self.record(part, 'live ' + words[0], *words[1:])
            self.same('live %s' % words[0], told, plain, 'live records')
