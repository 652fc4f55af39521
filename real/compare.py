#!/usr/bin/env python3
# Compares our reader with mkvinfo, mkvextract, mkvmerge and ffprobe: real/compare.py FOLDER ASK.. -- ROWS.. -- PARTS..
# FOLDER has the recordings of real/make.py; the words behind it are the commands that run `ask`, `rows` and `parts`.
# --selftest as the first word changes our answers and the tools' facts one at a time, and sees that it is noticed.
# --questions FILE as the first words writes some of the questions down: of each recording, the first three of each
# word, and all those for parts, tracks, `open` and Info. What `open` and Info have is in opened.py.
#
# It prints a line for each recording, the findings by reason, and a summary; FOLDER/findings.txt has each finding in a
# line. A finding is a difference with a named reason whose condition was tested on the tools' own facts. Whatever has
# no such reason is unexplained, and the status is then 1.
import collections
import os
import struct
import subprocess
import sys
import zlib

import tools
from against import Against, DEFAULTS, PARTS, PLAIN, ROWS, Tally, UNDER, WIDTH, before_zero, shown_number
from answers import Part, number, ranged
from opened import Whole
from tools import time_of

SMALL = 65536
CRC = 0xBF
NUMBERS = WIDTH * ROWS
KIND = [None, 'master', 'int', 'uint', 'string', 'utf8', 'binary', 'float', 'date']
TEXTS = (4, 5)
# The numbers and flags of a track: the field of our answer, its id, mkvinfo's label, mkvmerge's property, and ffprobe's
# disposition; None where the tool does not show it.
TRACK_NUMBERS = [
    ('number', 0xD7, 'Track number', 'number', None), ('uid', 0x73C5, 'Track UID', 'uid', None),
    ('enabled', 0xB9, '"Enabled" flag', 'enabled_track', None),
    ('default', 0x88, '"Default track" flag', 'default_track', 'default'),
    ('forced', 0x55AA, '"Forced display" flag', 'forced_track', 'forced'),
    ('lacing', 0x9C, '"Lacing" flag', None, None),
    ('duration', 0x23E383, 'Default duration', 'default_duration', None)]
# Those that are plain bytes for us, and so unset in the record: field, id, label and property.
TRACK_MARKS = [
    ('hearing', 0x55AB, '"Hearing impaired" flag', 'flag_hearing_impaired'),
    ('visual', 0x55AC, '"Visual impaired" flag', 'flag_visual_impaired'),
    ('text', 0x55AD, '"Text descriptions" flag', 'flag_text_descriptions'),
    ('original', 0x55AE, '"Original language" flag', 'flag_original'),
    ('commentary', 0x55AF, '"Commentary" flag', 'flag_commentary')]
# The stereo modes 0 to 14, as ffprobe calls them.
STEREO = ['mono', 'left_right', 'bottom_top', 'top_bottom', 'checkerboard_rl', 'checkerboard_lr', 'row_interleaved_rl',
          'row_interleaved_lr', 'col_interleaved_rl', 'col_interleaved_lr', 'anaglyph_cyan_red', 'right_left',
          'anaglyph_green_magenta', 'block_lr', 'block_rl']


class Asker:
    """Puts questions to one running `ask`, which answers line by line. `keep` keeps answers for the next time."""

    def __init__(self, command, keep=False):
        self.process = subprocess.Popen(command, stdin=subprocess.PIPE, stdout=subprocess.PIPE)
        self.keep, self.known, self.count = keep, {}, 0
        self.written, self.words = None, collections.Counter()

    def write(self, question):
        """Writes the question down, if it is for a part, a track, all parts or Info, or one of the first of its word
        since the last clearing of `words`."""
        word = ' '.join(word for word in question.split(' ')[:2] if word.isalpha())
        self.words[word] += 1
        if word in ('part', 'track', 'open', 'live open', 'info', 'family') or self.words[word] <= 3:
            self.written.write(question + '\n')

    def __call__(self, question):
        if question in self.known:
            return self.known[question]
        if self.written:
            self.write(question)
        self.process.stdin.write(question.encode() + b'\n')
        self.process.stdin.flush()
        answer = self.process.stdout.readline().decode()
        if not answer.endswith('\n'):
            sys.exit('compare.py: ask ended at the question %s' % question[:80])
        self.count += 1
        if self.keep:
            self.known[question] = answer[:-1]
        return answer[:-1]


class Comparison(Whole, Against):
    """One recording against the tools."""

    def __init__(self, name, folder, asker, run_rows, run_parts, said=None):
        super().__init__(name, folder, said)
        self.asker, self.run_rows, self.run_parts = asker, run_rows, run_parts
        self.small = len(self.bytes) <= SMALL
        self.digits = self.bytes.hex().upper() if self.small else None
        # For --selftest: changes one of our answers.
        self.change = lambda question, answer: answer

    # ---- Asking ----

    def ask(self, question, shown=None):
        return self.change(shown or question.split(' ')[0], self.asker(question))

    def same_text(self, what, ours, theirs):
        """A range of ours against a tool's text. Where the tool ends it before a zero byte, that is a finding: the
        range goes on."""
        if ours is None or theirs is None:
            return self.same(what, ours, theirs)
        data, expected = self.text(ours), theirs.encode('utf-8')
        if data != expected and before_zero(data) == expected:
            self.find('zero bytes', '%s: %r in %d bytes' % (what, theirs, len(data)))
            return True
        return self.same(what, data.decode('utf-8', 'replace'), theirs)

    # ---- The parts ----

    def parts(self):
        out = {}
        if self.small:
            questions = ['part %X %d %s' % (number, NUMBERS, self.digits) for number, _ in PARTS.values()]
            for (label, _), question in zip(PARTS.items(), questions):
                out[label] = Part(self.ask(question, 'part ' + label))
                if 'dirty' in out[label].answer:
                    self.fail('%s: a number of the table beyond the last row is not 0' % label)
        else:
            lines = self.run_parts(self.path).splitlines()
            for (label, (ident, _)), line in zip(PARTS.items(), lines):
                prefix = 'part %X ' % ident
                self.same('the line of ' + label, line[:len(prefix)], prefix)
                part = out[label] = Part(self.change('part ' + label, line[len(prefix):]))
                for row, words in zip(part.rows, line.split(' / ')[1:]):
                    self.ranges(label, row, ' '.join(words.split()[WIDTH:]))
        for label, part in out.items():
            self.same('%s: count of rows' % label, len(part.rows), getattr(part, 'told', 0))
        if self.small:
            self.listing(out)
        return out

    def ranges(self, label, row, told):
        """Where uz_row_payload says that a row's payload is, and uz_shown_text its shown text, which a text row alone
        has."""
        payload, shown, word = '%d+%d' % (row.start(), row.payload), 'refused 14', 'ranges'
        if row.kind in TEXTS:
            text = before_zero(self.text((row.start(), row.payload)))
            shown = '%d+%d' % (row.start(), len(text))
            word = 'ranges' if shown == payload else 'ranges with a zero byte'
        self.same('%s: payload and shown text by the C face' % label, self.change(word, told), payload + ' ' + shown,
                  'payloads')

    def listing(self, parts):
        """The listing tells the same rows as the part questions; it has 1,024 rows."""
        lines = ['recording %d' % len(self.bytes)]
        for label, (ident, _) in PARTS.items():
            part = parts[label]
            if part.found() and len(part.rows) > 1024:
                # The first element without a row.
                lines.append('part %X refused 13 %d' % (ident, part.rows[1024].at))
            elif part.found():
                lines.append('part %X at %d size %d rows %d' % (ident, part.at, part.size, len(part.rows)))
                lines += ['%d %d %d %d %s %X' % (r.at, r.header, r.payload, r.depth, KIND[r.kind], r.id)
                          for r in part.rows]
            elif part.refused == 13:
                # In a table of 1,024 rows another element is the first without one.
                fewer = Part(self.asker('part %X %d %s' % (ident, 1024 * WIDTH, self.digits)))
                lines.append('part %X refused %d %d' % (ident, fewer.refused, fewer.refused_at))
            else:
                lines.append('part %X %s' % (ident, 'absent' if part.refused is None else
                                             'refused %d %d' % (part.refused, part.refused_at)))
        got = self.change('listing', self.run_rows(self.path))
        self.same('the listing', got, '\n'.join(lines) + '\n', 'listings')

    # ---- Rows ----

    def is_crc(self, rows, index):
        row = rows[index]
        master = rows[row.parent - 1] if row.parent else None
        start, end = (master.start(), master.end()) if master else self.whole
        if row.id != CRC or row.at != start or row.payload != 4 or KIND[row.kind] != 'binary' or \
                row.depth != (master.depth + 1 if master else 0):
            return False
        told = int.from_bytes(self.bytes[row.start():row.end()], 'little')
        return told == zlib.crc32(self.bytes[row.end():end])

    def rows(self, label, part, element):
        self.whole = (part.at, part.at + part.size)
        shown = list(element.below())
        k = 0
        pairs = []
        for index, row in enumerate(part.rows):
            self.counts['rows'] += 1
            where = '%s row %d at %d' % (label, index, row.at)
            if k < len(shown) and shown[k].at == row.at:
                self.row(where, part, row, shown[k])
                pairs.append((row, shown[k]))
                k += 1
                # What mkvinfo shows inside of a master that is plain bytes for us.
                inside = 0
                while k < len(shown) and shown[k].depth > pairs[-1][1].depth and row.id in PLAIN and row.kind == 6 and \
                        tools.KINDS.get(row.id) == 'master' and row.start() <= shown[k].at < row.end():
                    inside += 1
                    k += 1
                if inside:
                    self.find('plain master', '%s: id %X with %d elements' % (where, row.id, inside))
                self.after(where, part, row, pairs[-1][1], shown[k:])
            elif self.is_crc(part.rows, index):
                self.find('crc-32', where)
                self.same(where + ': after', row.after, index + 1)
            else:
                self.fail('%s: mkvinfo has no element there' % where)
                break
        if k < len(shown):
            self.fail('%s: mkvinfo shows %s at %d, ours has no row' % (label, shown[k].label, shown[k].at))
        return pairs

    def row(self, where, part, row, shown):
        self.same(where + ': id', row.id, shown.id())
        self.same(where + ': header', row.header, shown.header())
        self.same(where + ': payload', row.payload, shown.data)
        self.same(where + ': depth', row.depth, shown.depth - 2)
        above = part.rows[row.parent - 1].at if row.parent else None
        self.same(where + ': parent', above, shown.parent.at if shown.depth > 2 else None)
        kind, known = KIND[row.kind], tools.KINDS.get(shown.id(), 'binary' if row.id == 0xEC else None)
        if kind != known and row.id in PLAIN and kind == 'binary':
            self.find('plain bytes', '%s: id %X, %s by Matroska' % (where, row.id, known))
        else:
            self.same(where + ': kind', kind, known)

    def after(self, where, part, row, shown, behind):
        """The row that the last number names is the first of mkvinfo's elements behind this one that begins where it
        ends or later; a CRC-32 is the first in its master, so none stands there."""
        due = next((element.at for element in behind if element.at >= shown.end()), None)
        if row.after < len(part.rows):
            self.same(where + ': after', part.rows[row.after].at, due)
        else:
            self.same(where + ': after', (row.after, None), (len(part.rows), due))

    def values(self, pairs):
        """The value that `body` tells of each leaf, against mkvinfo's, which shows nothing of an empty text."""
        asked = []
        for row, shown in pairs:
            if row.kind in (2, 3, *TEXTS, 7, 8) and (row.kind in TEXTS or shown.value is not None) and \
                    row.payload <= SMALL:
                question = 'body %X 0 0 %d %d %s' % (row.id, row.payload, row.at,
                                                     self.bytes[row.start():row.end()].hex() or '-')
                asked.append((row, shown, question))
        for row, shown, question in asked:
            word, value = self.ask(question).split(' ')[:2]
            where = 'the value of %s at %d' % (shown.label, row.at)
            if word == 'text':
                self.same(where + ': range', value, '0+%d' % row.payload)
                self.same_text(where, (row.start(), row.payload), shown.value or '')
            elif word == 'date':
                self.same(where, int(value), int.from_bytes(self.payload(shown), 'big', signed=True))
            elif word == 'float' and shown.label == 'Duration':
                # mkvinfo shows it in nanoseconds; here the bytes at its place are compared, and those with the record.
                stored = self.payload(shown)
                self.same(where, value, struct.pack('>d', *struct.unpack('>f' if len(stored) == 4 else '>d',
                                                                         stored)).hex().upper())
            elif word == 'float':
                ours = struct.unpack('>d', bytes.fromhex(value))[0]
                self.same(where, abs(ours - float(shown.value)) <= 1e-6 * max(1.0, abs(ours)), True)
            else:
                if shown_number(shown) is not None:
                    self.same(where, int(value), shown_number(shown))
                elif shown.label == 'Track type':
                    self.same(where, self.ask('tracktype ' + value).rstrip('s'), shown.value.rstrip('s'))
                else:
                    self.fail('%s: %r is not understood' % (where, shown.value))
            self.counts['values'] += 1

    def shown(self, label, part, pairs):
        """The shown text of a row is the text that mkvinfo shows. Asked are all texts with a zero byte, of the others
        the first, one in between and the last, and a row that is no text."""
        if not self.small:
            return
        index = {id(row): n for n, row in enumerate(part.rows)}
        texts, others = [], []
        for row, element in pairs:
            (texts if row.kind in TEXTS else others).append((row, element))
        padded = [pair for pair in texts if b'\0' in self.payload(pair[1])]
        plain = [pair for pair in texts if pair not in padded]
        few = [plain[k] for k in sorted({0, len(plain) // 2, len(plain) - 1})] if plain else []
        for row, element in padded + few + others[-1:]:
            question = 'shown %d %d %X %d %d %s' % (part.at, part.size, UNDER[label], NUMBERS, index[id(row)],
                                                    self.digits)
            text = (element.value or '').encode('utf-8')
            self.same('the shown text of the row at %d' % row.at, self.ask(question), 'text %d+%d %s' % (
                row.start(), len(text), text.hex().upper() or '-') if row.kind in TEXTS else 'refused 14 at 0', 'shown')

    def whose(self, label, part, element):
        """Some addresses of the part: who holds each, by mkvinfo's ranges."""
        if not part.size:
            return
        wanted = {part.at, part.at + part.size - 1}
        step = max(1, len(part.rows) // 5)
        for row in part.rows[::step]:
            wanted |= {row.at, row.start() - 1, min(row.start() + row.payload // 2, part.at + part.size - 1)}
        wanted = sorted(wanted)
        if self.small:
            questions = {a: 'whose %d %d %X %d %d %s' % (part.at, part.size, UNDER[label], a, NUMBERS, self.digits)
                         for a in wanted}
            said = {a: self.ask(q) for a, q in questions.items()}
            for a, answer in said.items():
                # The table is the one that the part question told.
                self.same('%s whose %d: the table' % (label, a), answer.split(' rows ', 1)[-1],
                          part.answer.split(' rows ', 1)[-1])
        else:
            said = {}
            for line in self.run_parts(self.path, '%X' % PARTS[label][0], *map(str, wanted)).splitlines():
                words = line.split(' ', 2)
                said[int(words[1])] = self.change('whose', words[2])
        for a in wanted:
            self.counts['addresses'] += 1
            words = said[a].split(' ')
            if words[0] != 'row':
                self.fail('%s whose %d: %s' % (label, a, said[a][:40]))
                continue
            row, place = part.rows[int(words[1])], words[2]
            holders = [e for e in element.below() if e.at <= a < e.end()]
            if row.id in PLAIN:
                holders = [e for e in holders if e.at == row.at or not row.start() <= e.at < row.end()]
            # The innermost of mkvinfo's elements; a CRC-32, which it does not show, is told apart by its range.
            inner = holders[-1] if holders else None
            if row.id == CRC and self.is_crc(part.rows, int(words[1])):
                self.same('%s whose %d' % (label, a), row.at <= a < row.end(), True)
                self.same('%s whose %d: place' % (label, a), place, 'header' if a < row.start() else 'payload')
            elif inner is None:
                self.fail('%s whose %d: row %s, mkvinfo has nothing there' % (label, a, words[1]))
            else:
                self.same('%s whose %d: row' % (label, a), row.at, inner.at)
                self.same('%s whose %d: place' % (label, a), place,
                          'header' if a < inner.at + inner.header() else 'payload')

    # ---- Records ----

    def record(self, part, word, *index):
        """A record question. The part of a large recording, or one of many rows, is cut out; its addresses then count
        from the cut. None: the part is too long for `ask`."""
        if self.small and len(part.rows) <= 1000:
            question = '%s %d %d %d %s %s' % (word, part.at, part.size, NUMBERS, ' '.join(map(str, index)), self.digits)
            return self.ask(question, word), 0
        if part.size > SMALL:
            return None, 0
        cut = self.bytes[part.at:part.at + part.size].hex().upper() or '-'
        question = '%s 0 %d %d %s %s' % (word, part.size, NUMBERS, ' '.join(map(str, index)), cut)
        return self.ask(question, word), part.at

    def fields(self, part, word, *index):
        """The answer's words by name, ranges with the cut added; None if refused."""
        answer, add = self.record(part, word, *index)
        if answer is None or answer.startswith('refused'):
            return answer and answer.split(' table')[0]
        if 'dirty' in answer or not answer.endswith(' rest 0'):
            self.fail('%s %r: the table is not clean' % (word, index))
        told, _, count = answer.rpartition(' rows ')
        self.same('%s %r: rows' % (word, index), count, '%d rest 0' % len(part.rows))
        words = told.split(' ')
        out, i = {}, 0
        while i < len(words):
            name, value = words[i], words[i + 1]
            i += 2
            if name in ('language', 'value') and value in ('iso', 'ietf', 'text', 'binary'):
                spot = ranged(words[i])
                value = (value, (spot[0] + add, spot[1]))
                i += 1
            elif '+' in value:
                spot = ranged(value)
                value = (spot[0] + add, spot[1])
            out[name] = value
        return out

    def ends(self, part, what, word, *index):
        """Behind the last record there is none: 15."""
        got = self.fields(part, word, *index)
        if got is not None:
            self.same('%s: one more' % what, got, 'refused 15 at 0')

    def same_number(self, what, ours, xml, name, parent, label):
        """A number or flag. The tool may show a default where mkvinfo shows no element."""
        theirs = xml.findtext(name)
        theirs = None if theirs is None else int(theirs)
        ours = number(ours)
        there = bool(self.children(parent, label))
        self.same('%s %s is set' % (what, name), ours is not None, there)
        if not there and theirs is not None and theirs == DEFAULTS.get(name):
            self.find('default', '%s %s: %d' % (what, name, theirs))
        else:
            self.same('%s %s' % (what, name), ours, theirs)

    def same_place(self, what, ours, parent, *labels):
        """A range of ours is the payload of the last child of mkvinfo's element that has one of the labels."""
        last = [e for e in parent.children if e.label in labels][-1:]
        self.same(what + ' place', None if ours == 'unset' else ours,
                  (last[0].at + last[0].header(), last[0].data) if last else None, 'places')

    def same_language(self, what, ours, xml, iso, ietf, seen, iso_label):
        isos = [e.text or '' for e in xml.findall(iso)]
        ietfs = [e.text or '' for e in xml.findall(ietf)]
        expected = ('ietf', ietfs[-1]) if ietfs else ('iso', isos[-1]) if isos else None
        if ours == 'unset':
            self.same(what + ' language', None, expected)
            return
        self.same_place(what + ' language', ours[1], seen, iso_label + (' (IETF BCP 47)' if ours[0] == 'ietf' else ''))
        if len(isos) + len(ietfs) > 1:
            self.find('languages', '%s: %s' % (what, ' '.join(isos + ietfs)))
        self.same(what + ' language kind', ours[0], expected and expected[0])
        self.same_text(what + ' language', ours[1], expected and expected[1])

    def chapters(self, part, element):
        xml = self.tools.chapters
        shown = self.children(element, 'Edition entry')
        editions = xml.findall('EditionEntry') if xml is not None else []
        self.same('editions by mkvinfo', len(editions), len(shown))
        flat = []
        for k, edition in enumerate(editions):
            what = 'edition %d' % k
            got = self.fields(part, 'edition', k)
            if not isinstance(got, dict):
                self.fail('%s: %s' % (what, got))
                continue
            self.counts['editions'] += 1
            for field, name, label in (('uid', 'EditionUID', 'Edition UID'),
                                       ('hidden', 'EditionFlagHidden', 'Edition flag hidden'),
                                       ('default', 'EditionFlagDefault', 'Edition flag default'),
                                       ('ordered', 'EditionFlagOrdered', 'Edition flag ordered')):
                self.same_number(what, got[field], edition, name, shown[k], label)
            atoms = edition.findall('ChapterAtom')
            self.same(what + ' chapters', int(got['chapters']), len(atoms))
            seen = self.children(shown[k], 'Chapter atom')
            for i, atom in enumerate(atoms):
                flat.append(self.chapter(part, k, i, atom, seen[i]))
            self.ends(part, what, 'chapter', k, len(atoms))
        self.ends(part, 'Chapters', 'edition', len(editions))
        self.probe_chapters([c for c in flat if c])

    def chapter(self, part, k, i, atom, seen):
        what = 'chapter %d of edition %d' % (i, k)
        got = self.fields(part, 'chapter', k, i)
        if not isinstance(got, dict):
            self.fail('%s: %s' % (what, got))
            return None
        self.counts['chapters'] += 1
        self.same_number(what, got['uid'], atom, 'ChapterUID', seen, 'Chapter UID')
        for field, name in (('start', 'ChapterTimeStart'), ('end', 'ChapterTimeEnd')):
            text = atom.findtext(name)
            self.same('%s %s' % (what, name), number(got[field]), None if text is None else time_of(text))
        self.same_number(what, got['hidden'], atom, 'ChapterFlagHidden', seen, 'Chapter flag hidden')
        self.same_number(what, got['enabled'], atom, 'ChapterFlagEnabled', seen, 'Chapter flag enabled')
        self.same_number(what, got['edition'], atom, 'ChapterSegmentEditionUID', seen, 'Chapter segment edition UID')
        segment = atom.findtext('ChapterSegmentUID')
        ours = got['segment']
        self.same_place(what + ' ChapterSegmentUID', ours, seen, 'Chapter segment UID')
        self.same(what + ' ChapterSegmentUID', None if ours == 'unset' else self.text(ours).hex(),
                  None if segment is None else segment.replace(' ', '').lower())
        nested = list(atom.iter('ChapterAtom'))[1:]
        inside = [r for r in part.rows if r.id == 0xB6 and seen.at < r.at < seen.end()]
        self.same(what + ' nested atoms in the rows', len(inside), len(nested))
        if nested:
            self.find('nested', '%s: %d atoms inside' % (what, len(nested)))
        displays, shown = atom.findall('ChapterDisplay'), self.children(seen, 'Chapter display')
        self.same(what + ' displays', int(got['displays']), len(displays))
        names = []
        for j, display in enumerate(displays):
            told = self.fields(part, 'display', k, i, j)
            where = 'display %d of %s' % (j, what)
            if not isinstance(told, dict):
                self.fail('%s: %s' % (where, told))
                continue
            self.counts['displays'] += 1
            spot = None if told['string'] == 'unset' else told['string']
            self.same_text(where, spot, display.findtext('ChapterString'))
            self.same_place(where, told['string'], shown[j], 'Chapter string')
            self.same_language(where, told['language'], display, 'ChapterLanguage', 'ChapLanguageIETF', shown[j],
                               'Chapter language')
            if spot is not None:
                names.append(before_zero(self.text(spot)).decode('utf-8', 'replace'))
                if j == 0:
                    self.label(where, spot)
        self.ends(part, what, 'display', k, i, len(displays))
        return number(got['uid']), number(got['start']), number(got['end']), names

    def label(self, where, spot):
        """The stage label is what is shown of the first display's name, or where that is empty the caller's, `?`."""
        piece = self.text(spot)
        question = 'label 0+%d 3F %s' % (len(piece), piece.hex() or '-')
        self.same(where + ' label', self.ask(question), 'label ' + (before_zero(piece) or b'?').hex().upper(), 'labels')

    def probe_chapters(self, ours):
        """Our outer atoms against ffprobe's flat list."""
        probed = self.tools.probed.get('chapters', [])
        latest, kept = None, []
        for uid, start, end, names in ours:
            if latest is not None and start <= latest and latest > 0:
                self.find('ffprobe: editions', 'the chapter at %d with uid %d' % (start, uid))
                continue
            latest = start if latest is None else max(latest, start)
            kept.append((uid, start, end, names))
        if not self.same('chapters by ffprobe', len(kept), len(probed)):
            return
        for n, ((uid, start, end, names), theirs) in enumerate(zip(kept, probed)):
            what = 'the chapter at %d by ffprobe' % start
            self.counts['chapters by ffprobe'] += 1
            if theirs['id'] < 0 <= uid - 2 ** 63 and theirs['id'] % 2 ** 64 == uid:
                self.find('ffprobe: uid', '%s: %d is %d' % (what, uid, theirs['id']))
            else:
                self.same(what + ' uid', uid, theirs['id'])
            self.same(what + ' time base', theirs['time_base'], '1/1000000000')
            self.same(what + ' start', start, theirs['start'])
            after = probed[n + 1]['start'] if n + 1 < len(probed) else max(start, self.duration())
            if end is None and theirs['end'] == after:
                self.find('ffprobe: end', '%s: %d' % (what, theirs['end']))
            else:
                self.same(what + ' end', end, theirs['end'])
            title = theirs.get('tags', {}).get('title')
            if len(names) > 1 and title == names[-1] != names[0]:
                self.find('ffprobe: name', '%s: %s, and ours is %s' % (what, title, names[0]))
            else:
                self.same(what + ' name', names[0] if names else None, title)

    def duration(self):
        """Where the recording ends by ffprobe, in nanoseconds; 0 where it can't tell."""
        about = self.tools.probed['format']
        return round((float(about['start_time']) + float(about['duration'])) * 10 ** 9) if 'duration' in about else 0

    def tags(self, part, element):
        xml = self.tools.tags
        shown = self.children(element, 'Tag')
        listed = xml.findall('Tag') if xml is not None else []
        self.same('tags by mkvinfo', len(listed), len(shown))
        for k, tag in enumerate(listed):
            what = 'tag %d' % k
            got = self.fields(part, 'tag', k)
            if not isinstance(got, dict):
                self.fail('%s: %s' % (what, got))
                continue
            self.counts['tags'] += 1
            targets = tag.find('Targets')
            self.same(what + ' target', got['target'], 'no' if targets is None else 'yes')
            if targets is not None and got['target'] == 'yes':
                seen = self.children(shown[k], 'Targets')[0]
                self.same_number(what, got['value'], targets, 'TargetTypeValue', seen, 'Target type value')
                self.same_text(what + ' TargetType', None if got['type'] == 'unset' else got['type'],
                               targets.findtext('TargetType'))
                self.same_place(what + ' TargetType', got['type'], seen, 'Target type')
                for field, word, name in (('tracks', 'track', 'TrackUID'), ('editions', 'edition', 'EditionUID'),
                                          ('chapters', 'chapter', 'ChapterUID'),
                                          ('attachments', 'attachment', 'AttachmentUID')):
                    uids = [int(e.text) for e in targets.findall(name)]
                    self.same('%s %s' % (what, name), int(got[field]), len(uids))
                    for i, uid in enumerate(uids):
                        told = self.fields(part, 'uid', k, word, i)
                        self.counts['uids'] += 1
                        if isinstance(told, dict):
                            self.same('%s %s %d' % (what, name, i), int(told['uid']), uid)
                        elif told:
                            self.fail('%s %s %d: %s' % (what, name, i, told))
                    self.ends(part, '%s %s' % (what, name), 'uid', k, word, len(uids))
            simples = tag.findall('Simple')
            self.same(what + ' simple tags', int(got['simple']), len(simples))
            seen = self.children(shown[k], 'Simple')
            for i, simple in enumerate(simples):
                self.simple(part, k, i, simple, seen[i])
            self.ends(part, what, 'simple', k, len(simples))
        self.ends(part, 'Tags', 'tag', len(listed))

    def simple(self, part, k, i, simple, seen):
        what = 'simple tag %d of tag %d' % (i, k)
        got = self.fields(part, 'simple', k, i)
        if not isinstance(got, dict):
            self.fail('%s: %s' % (what, got))
            return
        self.counts['simple tags'] += 1
        self.same_text(what + ' name', None if got['name'] == 'unset' else got['name'], simple.findtext('Name'))
        self.same_place(what + ' name', got['name'], seen, 'Name')
        self.same_language(what, got['language'], simple, 'TagLanguage', 'TagLanguageIETF', seen, 'Tag language')
        self.same_number(what, got['default'], simple, 'DefaultLanguage', seen, 'Default language')
        text, binary = simple.findtext('String'), simple.findtext('Binary')
        value = got['value']
        self.same_place(what + ' value', value if value == 'unset' else value[1], seen, 'String', 'Binary')
        if value == 'unset':
            self.same(what + ' value', (None, None), (text, binary))
        elif value[0] == 'text':
            self.same(what + ' binary', None, binary)
            self.same_text(what + ' value', value[1], text)
        else:
            self.same(what + ' text', None, text)
            form = simple.find('Binary')
            theirs = bytes.fromhex(binary) if form is not None and form.get('format') == 'hex' else None
            self.same(what + ' value', self.text(value[1]), theirs, 'binary values')
        nested = list(simple.iter('Simple'))[1:]
        inside = [r for r in part.rows if r.id == 0x67C8 and seen.at < r.at < seen.end()]
        self.same(what + ' nested in the rows', len(inside), len(nested))
        if nested:
            self.find('nested', '%s: %d simple tags inside' % (what, len(nested)))

    def attachments(self, part, element):
        listed, files = self.tools.identified.get('attachments', []), self.tools.attached
        shown = self.children(element, 'Attached')
        self.same('attachments by mkvinfo', len(shown), len(listed))
        streams = [s for s in self.tools.probed.get('streams', []) if s.get('codec_type') == 'attachment']
        for k, told in enumerate(listed):
            what = 'attachment %d' % k
            got = self.fields(part, 'attachment', k)
            if got is None:
                # Too long for `ask`: the rows are read instead, by the C face.
                inside = [r for r in part.rows if r.depth == 1 and shown[k].at < r.at < shown[k].end()]
                got = {'description': 'unset', 'name': 'unset', 'mime': 'unset', 'data': 'unset'}
                for r in inside:
                    field = {0x467E: 'description', 0x466E: 'name', 0x4660: 'mime', 0x465C: 'data'}.get(r.id)
                    if field:
                        got[field] = (r.start(), r.payload)
                self.counts['attachments by rows'] += 1
            elif not isinstance(got, dict):
                self.fail('%s: %s' % (what, got))
                continue
            self.counts['attachments'] += 1
            self.same_text(what + ' name', None if got['name'] == 'unset' else got['name'], told['file_name'])
            self.same_text(what + ' mime type', None if got['mime'] == 'unset' else got['mime'], told['content_type'])
            if got['description'] == 'unset' and told['description'] == '' and \
                    not self.children(shown[k], 'File description'):
                self.find('description', what)
            else:
                self.same_text(what + ' description', None if got['description'] == 'unset' else got['description'],
                               told['description'])
            for field, name in (('name', 'File name'), ('mime', 'MIME type'), ('description', 'File description'),
                                ('data', 'File data')):
                self.same_place('%s %s' % (what, field), got[field], shown[k], name)
            data = None if got['data'] == 'unset' else self.text(got['data'])
            if self.small:
                self.data(what, part, shown[k], files[k])
            self.same(what + ' size', data and len(data), told['size'])
            self.same(what + ' data', data == files[k], True)
            if k < len(streams):
                tags = streams[k].get('tags', {})
                self.same_text(what + ' name by ffprobe', got['name'], tags.get('filename'))
                self.same_text(what + ' mime type by ffprobe', got['mime'], tags.get('mimetype'))
        if streams:
            self.same('attachments by ffprobe', len(listed), len(streams))
        self.ends(part, 'Attachments', 'attachment', len(listed))

    def data(self, what, part, seen, data):
        """The bytes that the payload question gives for the row of the file's data."""
        index = [n for n, r in enumerate(part.rows) if r.id == 0x465C and seen.at < r.at < seen.end()]
        question = 'payload %d %d 61A7 %d %d %s' % (part.at, part.size, NUMBERS, index[-1], self.digits)
        self.same(what + ' payload', self.ask(question), 'bytes ' + (data.hex().upper() or '-'), 'payloads')

    def tracks(self, part, element):
        listed = self.tools.identified.get('tracks', [])
        streams = [s for s in self.tools.probed.get('streams', []) if s.get('codec_type') != 'attachment']
        shown = self.children(element, 'Track')
        ours = [(n, r) for n, r in enumerate(part.rows) if r.id == 0xAE and r.depth == 0]
        self.same('tracks by mkvinfo', len(ours), len(shown))
        if not self.same('tracks by mkvmerge', len(ours), len(listed)):
            return
        self.same('tracks by ffprobe', len(ours), len(streams))
        for k, ((n, row), seen, told, stream) in enumerate(zip(ours, shown, listed, streams)):
            what = 'track at %d' % row.at
            got = self.fields(part, 'track', k)
            if not isinstance(got, dict):
                self.fail('%s: %s' % (what, got))
                continue
            self.counts['tracks'] += 1
            # The last direct child of each id.
            inside = {r.id: r for r in part.rows if r.parent == n + 1}
            self.track_numbers(what, got, inside, seen, told['properties'], stream)
            kind = self.whole_number(inside.get(0x83))
            self.same(what + ' type by its row', got['type'],
                      'unset' if kind is None else self.ask('tracktype %d' % kind))
            self.same(what + ' type', got['type'], told['type'].rstrip('s'))
            self.same(what + ' type by ffprobe', got['type'], stream['codec_type'])
            self.track_texts(what, got, seen, told['properties'], stream)
            self.settings(what, part, element, got, n, seen, told['properties'], stream)
        self.ends(part, 'Tracks', 'track', len(ours))

    def track_numbers(self, what, got, inside, seen, properties, stream):
        for field, ident, label, name, probed in TRACK_NUMBERS:
            where = '%s %s' % (what, field)
            value = number(got[field])
            self.same(where + ' by its row', value, self.whole_number(inside.get(ident)))
            last = self.children(seen, label)[-1:]
            self.same(where + ' by mkvinfo', value, shown_number(last[0]) if last else None)
            if not last and field in DEFAULTS:
                self.find('default', '%s: %d' % (where, DEFAULTS[field]))
                value = DEFAULTS[field]
            if name:
                self.same(where, value, properties.get(name))
            if probed:
                self.same(where + ' by ffprobe', value, stream['disposition'][probed])
        for field, ident, label, name in TRACK_MARKS:
            where = '%s %s' % (what, field)
            self.same(where, got[field], 'unset')
            if self.children(seen, label):
                mark = inside[ident]
                self.same(where + ': the bytes', int.from_bytes(self.text((mark.start(), mark.payload)), 'big'),
                          properties.get(name))
                self.find('marks', '%s: %s, in a row of kind %s' % (where, properties.get(name), KIND[mark.kind]))
            else:
                self.same(where + ' by mkvmerge', None, properties.get(name))

    def track_texts(self, what, got, seen, properties, stream):
        spots = {field: None if got[field] == 'unset' else got[field] for field in ('name', 'codec', 'private',
                                                                                    'codecname')}
        for field, label in (('name', 'Name'), ('codec', 'Codec ID'), ('private', 'Codec\'s private data'),
                             ('codecname', 'Codec name')):
            self.same_place('%s %s' % (what, field), got[field], seen, label)
        named = self.children(seen, 'Name')[-1:]
        if named and not before_zero(self.payload(named[0])) and properties.get('track_name') is None:
            self.find('empty name', what)
        else:
            self.same_text(what + ' name', spots['name'], properties.get('track_name'))
        tags = stream.get('tags', {})
        self.same_text(what + ' name by ffprobe', spots['name'], tags.get('title'))
        self.same_text(what + ' codec', spots['codec'], properties['codec_id'])
        self.same_text(what + ' codec name', spots['codecname'], properties.get('codec_name'))
        data = None if spots['private'] is None else self.text(spots['private'])
        self.same(what + ' private', data and data.hex(), properties.get('codec_private_data'))
        self.same(what + ' private size', len(data or b''), properties['codec_private_length'])
        self.track_language(what, got['language'], seen, properties, tags)

    def track_language(self, what, ours, seen, properties, tags):
        """mkvmerge shows both languages of a track. ffprobe shows the older form alone, and no 'und'."""
        isos, ietfs = self.children(seen, 'Language'), self.children(seen, 'Language (IETF BCP 47)')
        kind = 'ietf' if ietfs else 'iso' if isos else 'unset'
        if not self.same(what + ' language kind', ours if ours == 'unset' else ours[0], kind):
            return
        if not isos and properties['language'] == DEFAULTS['Language'] == tags.get('language'):
            self.find('default', '%s language: %s' % (what, properties['language']))
        elif kind == 'iso':
            self.same_text(what + ' language', ours[1], properties['language'])
            self.same_text(what + ' language by ffprobe', ours[1], tags.get('language', 'und'))
        elif kind == 'unset':
            self.same(what + ' language', None, properties['language'])
        if kind != 'unset':
            self.same_place(what + ' language', ours[1], seen, (ietfs or isos)[-1].label)
        if kind == 'ietf':
            self.same_text(what + ' language', ours[1], properties.get('language_ietf'))
            if isos:
                self.find('languages', '%s: %s' % (what, ' '.join(e.value for e in isos + ietfs)))

    def settings(self, what, part, element, got, n, seen, properties, stream):
        """The settings of a track: those of the last Video or Audio in it."""
        both = [(i, r) for i, r in enumerate(part.rows) if r.parent == n + 1 and r.id in (0xE0, 0xE1)]
        deciding = [e for e in seen.children if e.label in ('Video track', 'Audio track')][-1:]
        kind = deciding[0].label.split(' ')[0].lower() if deciding else 'none'
        if not self.same(what + ' settings', got['settings'], kind) or not deciding:
            return
        i, row = both[-1]
        self.same(what + ' settings: the row', row.at, deciding[0].at)
        if kind == 'audio':
            words = self.audio(what, part, element, row, properties, stream)
            for field in ('rate', 'channels', 'depth'):
                self.same('%s %s by the audio question' % (what, field), got[field],
                          words and words[words.index(field) + 1])
            return
        self.video(what, got, {r.id: r for r in part.rows if r.parent == i + 1}, deciding[0], properties, stream)

    def video(self, what, got, inside, seen, properties, stream):
        self.counts['video settings'] += 1
        pixels, shows = ([int(n) for n in properties[name].split('x')] for name in ('pixel_dimensions',
                                                                                   'display_dimensions'))
        for field, ident, label, theirs, probed in (
                ('width', 0xB0, 'Pixel width', pixels[0], stream['width']),
                ('height', 0xBA, 'Pixel height', pixels[1], stream['height']),
                ('dwidth', 0x54B0, 'Display width', shows[0], None),
                ('dheight', 0x54BA, 'Display height', shows[1], None)):
            where = '%s %s' % (what, field)
            value = number(got[field])
            last = self.children(seen, label)[-1:]
            self.same(where + ' by its row', value, self.whole_number(inside.get(ident)))
            self.same(where + ' by mkvinfo', value, shown_number(last[0]) if last else None)
            if not last and field in ('dwidth', 'dheight') and theirs == pixels[field == 'dheight']:
                self.find('default', '%s: %d' % (where, theirs))
            else:
                self.same(where, value, theirs)
            if probed is not None:
                self.same(where + ' by ffprobe', value, probed)
        # 1 is interlaced and 2 is not; any other number says nothing.
        last = self.children(seen, 'Interlaced')[-1:]
        told = shown_number(last[0]) if last else None
        self.same(what + ' interlaced by its row', self.whole_number(inside.get(0x9A)), told)
        self.same(what + ' interlaced', got['interlaced'], {1: 'yes', 2: 'no'}.get(told, 'unset'))
        if got['interlaced'] == 'no':
            self.same(what + ' interlaced by ffprobe', 'progressive', stream.get('field_order'))
        elif got['interlaced'] == 'yes':
            self.same(what + ' interlaced by ffprobe', stream.get('field_order') != 'progressive', True)
        last = self.children(seen, 'Stereo mode')[-1:]
        mode = number(got['stereo'])
        self.same(what + ' stereo by its row', mode, self.whole_number(inside.get(0x53B8)))
        self.same(what + ' stereo by mkvinfo', mode, shown_number(last[0]) if last else None)
        self.same(what + ' stereo', mode, properties.get('stereo_mode'))
        self.same(what + ' stereo by ffprobe', None if mode is None else STEREO[mode],
                  stream.get('tags', {}).get('stereo_mode'))
        self.same(what + ' gamma', got['gamma'] != 'unset', 0x2FB523 in inside)

    def whole_number(self, row):
        if row is None:
            return None
        piece = self.text((row.start(), row.payload)).hex() or '-'
        return int(self.ask('body %X 0 0 %d %d %s' % (row.id, row.payload, row.at, piece)).split(' ')[1])

    def audio(self, what, part, element, row, properties, stream):
        piece = self.text((row.start(), row.payload)).hex() or '-'
        answer = self.ask('audio 0 %d %d 0 %s' % (row.payload, NUMBERS, piece), 'audio')
        words = answer.split(' ')
        if words[0] != 'rate':
            self.fail('%s audio: %s' % (what, answer[:60]))
            return None
        inside = [r for r in part.rows if row.start() <= r.at < row.end()]
        self.same(what + ' audio: rows', ' '.join(words[6:]), 'rows %d rest 0' % len(inside))
        self.counts['audio settings'] += 1
        seen = [e for e in element.below() if e.at == row.at][0]
        rate = None if words[1] == 'unset' else struct.unpack('>d', bytes.fromhex(words[1]))[0]
        for name, label, value, theirs, probed in (
                ('SamplingFrequency', 'Sampling frequency', rate, properties.get('audio_sampling_frequency'),
                 stream.get('sample_rate')),
                ('Channels', 'Channels', number(words[3]), properties.get('audio_channels'), stream.get('channels'))):
            there = bool(self.children(seen, label))
            self.same('%s %s is set' % (what, name), value is not None, there)
            if not there and theirs == DEFAULTS[name]:
                self.find('default', '%s %s: %g' % (what, name, theirs))
                value = DEFAULTS[name]
            else:
                self.same('%s %s' % (what, name), value, theirs)
            if name == 'SamplingFrequency' and stream.get('codec_name') == 'opus' and probed == '48000' != str(value):
                self.find('ffprobe: opus', '%s: %g' % (what, value))
            else:
                self.same('%s %s by ffprobe' % (what, name), value, float(probed))
        self.same(what + ' BitDepth', number(words[5]), properties.get('audio_bits_per_sample'))
        return words

    # ---- All of it ----

    def all(self):
        if self.tools.info.unread:
            self.fail('mkvinfo\'s line is not understood: %r' % self.tools.info.unread[0][:100])
        parts = self.parts()
        for label, part in parts.items():
            element = self.place(label, part)
            if element is None:
                continue
            pairs = self.rows(label, part, element)
            self.values(pairs)
            self.shown(label, part, pairs)
            self.whose(label, part, element)
            {'Tracks': self.tracks, 'Attachments': self.attachments, 'Chapters': self.chapters,
             'Tags': self.tags}[label](part, element)
        info, element = self.opened(parts, NUMBERS) or (None, None)
        if info is not None:
            pairs = self.rows('Info', info, element)
            self.values(pairs)
            self.shown('Info', info, pairs)
            if self.small:
                self.whose('Info', info, element)
            self.information(info, element)
        return self

    def line(self):
        found = ', '.join('%d %s' % (self.counts[name], name) for name in
                          ('rows', 'chapters', 'displays', 'tags', 'simple tags', 'attachments', 'tracks')
                          if self.counts[name])
        state = 'UNEXPLAINED %d' % len(self.wrong) if self.wrong else 'explained'
        return '%s: %d bytes, %d of 4 parts, %s; findings %d; %s' % (
            self.name, len(self.bytes), self.counts['parts found'], found, len(self.findings), state)


def runner(command):
    def run(path, *words):
        options = [word for word in words if word.startswith('--')]
        told = [*options, path, *words[len(options):]] if command[-1].endswith('parts') else []
        with open(path, 'rb') as file:
            done = subprocess.run(command + told, stdin=file, stdout=subprocess.PIPE)
        if done.returncode != 0:
            sys.exit('compare.py: %s: status %d of %s' % (path, done.returncode, ' '.join(command)))
        return done.stdout.decode('utf-8')
    return run


def split_words(words):
    out = [[]]
    for word in words:
        if word == '--':
            out.append([])
        else:
            out[-1].append(word)
    return out


def main():
    words = sys.argv[1:]
    selftest, questions = words[:1] == ['--selftest'], None
    if selftest:
        words = words[1:]
    elif words[:1] == ['--questions']:
        questions, words = words[1], words[2:]
    groups = split_words(words[1:])
    if not words or len(groups) != 3 or not all(groups):
        sys.exit('usage: real/compare.py [--selftest | --questions FILE] FOLDER ASK.. -- ROWS.. -- PARTS..')
    folder, asker = words[0], Asker(groups[0])
    run_rows, run_parts = runner(groups[1]), runner(groups[2])
    with open(os.path.join(folder, 'list'), encoding='utf-8') as file:
        names = [line.split('\t')[0] for line in file]
    if selftest:
        import selftest as tests
        sys.exit(tests.run(folder, asker, run_rows, run_parts, Comparison, tools))
    asker.written = open(questions, 'w', encoding='ascii') if questions else None
    with open(os.path.join(folder, 'findings.txt'), 'w', encoding='utf-8') as log:
        tally = Tally(log)
        for name in names:
            asker.words.clear()
            one = Comparison(name, folder, asker, run_rows, run_parts).all()
            print(one.line(), flush=True)
            tally.add(one)
    tally.tell()
    print('real: %d recordings, %d questions, %d findings, %d unexplained' %
          (len(names), asker.count, tally.findings(), tally.unexplained))
    if asker.written:
        asker.written.close()
    sys.exit(1 if tally.unexplained else 0)


if __name__ == '__main__':
    main()
