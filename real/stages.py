#!/usr/bin/env python3
# Compares what the viewer `stages` shows of each recording with mkvinfo, mkvextract and mkvmerge:
# real/stages.py [--selftest] FOLDER VIEWER.. FOLDER has the recordings of real/make.py; the words behind it are the
# command that runs the viewer. The JSON is held to the tools. The plain text, with and without --hex, and standard
# error are held to the JSON line by line. Some addresses are asked for, and held to mkvinfo. --selftest changes the
# viewer's answers and the tools' facts one at a time, and sees that it is noticed.
#
# It prints the recordings of which something is unexplained, the findings by reason, and a summary; FOLDER/stages.txt
# has each finding in a line. What a finding is, compare.py tells. The status is 1 if anything is unexplained.
import json
import os
import re
import subprocess
import sys
import zlib

import tools
from against import Against, DEFAULTS, PARTS, PLAIN, Tally, before_zero, shown_number

CRC = 0xBF
ONES = 2 ** 64 - 1
# The lists of uids in a tag's target: the key of our JSON, the word of our lines, and the tools' names.
UIDS = [('tracks', 'track', 'TrackUID', 'Track UID'), ('editions', 'edition', 'EditionUID', 'Edition UID'),
        ('chapters', 'chapter', 'ChapterUID', 'Chapter UID'),
        ('attachments', 'attachment', 'AttachmentUID', 'Attachment UID')]
TYPES = {1: 'video', 2: 'audio', 3: 'complex', 16: 'logo', 17: 'subtitle', 18: 'buttons', 32: 'control'}
# What it says where live mode may find more.
NOTE = 'sizes in it are not known: stages --live FILE may find more'
# What the viewer remarks on a file, and the refusals that each explains better than their own words.
REMARKS = [
    ('endless', r'the size of the segment is not known: .*', {1}),
    ('no bytes', r'the segment says that it has no bytes, though (\d+) follow: .*', set()),
    ('cut off', r'the file was cut off: its segment would end at (\d+), and the file ends at (\d+)', set()),
    ('unknown size', r'the size of the (\w+) at (\d+) is not known: .*', {1, 2, 3}),
    ('in a frame', r'(\w+) at (\d+) was found behind the start of the (\w+) at (\d+), whose size is not known: .*',
     set()),
    ('unfilled', r'the seek entry for ([\w ]+) was never filled in: .*', {8}),
    ('twice', r'(\w+) is there more than once: the one at (\d+) is shown, that at (\d+) is not', set()),
    ('outside', r'(\w+) stands at (\d+); it is not shown, being outside the segment', set()),
    ('not named', r'(\w+) stands at (\d+); it is not shown, since no seek head that is reached names it', set()),
    ('not trusted', r'(\w+) stands at (\d+); it is not shown, since the seek heads can\'t be trusted', set()),
    ('elsewhere', r'(\w+) stands at (\d+); it is not shown, since its seek entry leads elsewhere', set())]
ROW = re.compile(r'(\w+) row (\d+) (header|payload) id ([0-9A-F]+) \S+ kind (\w+) header (\d+)\+(\d+) '
                 r'payload (\d+)\+(\d+)(?: text (.*))?')
IN_ROW = re.compile(r'  in row (\d+) id ([0-9A-F]+) \S+ header (\d+)\+(\d+) payload (\d+)\+(\d+)')
IN_FILE = re.compile(r'(?:file (header|payload)|  in) id ([0-9A-F]+) \S+ header (\d+)\+(\d+) payload (\d+)\+(\d+)(.*)')
ENTRY = re.compile(r'entry (\d+) id ([0-9A-F]+) \S+ position (\d+) (.*)')
LEADS = re.compile(r'leads to (\d+), where ([0-9A-F]+) \S+ stands(: the entry is stale)?')


def refusals():
    """What each refusal means, what its address is and what to do, by the page on them."""
    page = os.path.join(os.path.dirname(os.path.dirname(os.path.abspath(__file__))), 'docs', 'REFUSALS.md')
    with open(page, encoding='utf-8') as file:
        cells = [line.strip('|\n ').split(' | ') for line in file if re.match(r'\| \d', line)]
    return {int(row[0]): (row[3], row[4], row[5]) for row in cells}


def element_names():
    """Matroska's names of elements, by the list that the viewer is built with."""
    listed = os.path.join(os.path.dirname(os.path.dirname(os.path.abspath(__file__))), 'viewer', 'names.def')
    with open(listed, encoding='utf-8') as file:
        return {int(ident, 16): name for ident, name in re.findall(r'^UZ_NAME\(0x(\w+), (\S+)\)$', file.read(), re.M)}


REFUSALS = refusals()
ELEMENTS = element_names()


class Part:
    """A part, as the JSON tells it."""

    def __init__(self, told):
        self.name, self.id, self.state = told['name'], int(told['id'], 16), told['state']
        self.refused, self.heads = told.get('refused'), told.get('heads')
        self.at, self.size, self.rows = told.get('at'), told.get('size'), told.get('rows')
        self.stands, self.meaning, self.next = told.get('stands'), told.get('meaning'), told.get('next')
        self.entry, self.refused_at, self.there = told.get('entry'), told.get('refused_at'), told.get('there')
        self.where = told.get('where')
        self.answer = self.state if self.refused is None else 'refused %d' % self.refused

    def found(self):
        return self.at is not None


# ---- The plain text, made from the JSON ----

def escaped(text, quoted=True):
    out = ''
    for sign in text:
        if sign < ' ' or '\x7f' <= sign < '\xa0' or sign == '\\' or (quoted and sign == '"'):
            out += ''.join('\\x%02X' % byte for byte in sign.encode('utf-8'))
        else:
            out += sign
    return '"%s"' % out if quoted else out


def value_of(field):
    return None if field is None else field['value']


def text_of(field):
    return '-' if field is None else escaped(field['value'])


def time_of(field):
    """In hours, minutes, seconds and milliseconds, cut."""
    if field is None:
        return '-'
    seconds, rest = divmod(field['value'], 10 ** 9)
    return '%d:%02d:%02d.%03d' % (seconds // 3600, seconds // 60 % 60, seconds % 60, rest // 10 ** 6)


class Text:
    """The lines that have to be shown. `hexed` tells whether addresses have their hexadecimal form too."""

    def __init__(self, told, hexed):
        self.told, self.hexed = told, hexed
        self.atoms = [atom for edition in told['editions'] for atom in edition['atoms']]

    def address(self, number):
        return '%d/0x%X' % (number, number) if self.hexed else str(number)

    def lines(self):
        out = []
        for edition in self.told['editions']:
            uid = edition['uid']
            marks = [word for word in ('default', 'hidden', 'ordered') if value_of(edition[word])]
            out.append(' '.join(['edition', self.address(edition['at'])] +
                                (['uid', str(uid['value'])] if uid else []) + marks))
            out += self.below(edition['atoms'], None, 1)
        for tag in self.told['tags']:
            out.append('tag %s target %s' % (self.address(tag['at']), self.target(tag['target'])))
            out += ['  ' * (simple['level'] + 1) + self.simple(simple) for simple in tag['simple']]
        for track in self.told['tracks']:
            out.append('track %s number %s type %s name %s' % (
                self.address(track['at']), track['number']['value'] if track['number'] else '-', track['kind'] or '-',
                text_of(track['name'])))
        for file in self.told['attachments']:
            data = '%s bytes %d' % (self.address(file['data']['at']), file['data']['length']) if file['data'] else '-'
            out.append('attachment %s name %s type %s data %s%s' % (
                self.address(file['at']), text_of(file['name']), text_of(file['type']), data,
                ' description ' + text_of(file['description']) if file['description'] else ''))
        return out

    def below(self, atoms, parent, level):
        """The atoms right below a parent by start, those without one last; equal ones stay in file order."""
        out = []
        for atom in sorted((a for a in atoms if a['parent'] == parent),
                           key=lambda a: (a['start'] is None, value_of(a['start']) or 0)):
            out.append('  ' * level + self.atom(atom))
            out += self.below(atoms, atom['at'], level + 1)
        return out

    def atom(self, atom):
        named = [d for d in atom['displays'] if d['string']]
        words = [time_of(atom['start']), time_of(atom['end']), self.address(atom['at']), text_of(atom['name'])]
        for display in named[1:]:
            code = value_of(display['language'])
            plain = code and re.fullmatch('[A-Za-z][A-Za-z0-9-]*', code)
            words += [code if plain else text_of(display['language']), text_of(display['string'])]
        return ' '.join(words + (['hidden'] if value_of(atom['hidden']) else []) +
                        (['disabled'] if value_of(atom['enabled']) is False else []))

    def target(self, target):
        if target is None:
            return '-'
        out = '-' if target['value'] is None else str(target['value']['value'])
        if target['type']:
            out += ' type ' + text_of(target['type'])
        # What has the uid: the first of its kind in the file, with its name if it has one that is not empty.
        have = {'tracks': self.told['tracks'], 'editions': self.told['editions'], 'chapters': self.atoms,
                'attachments': self.told['attachments']}
        for key, word, _, _ in UIDS:
            for uid in target[key]:
                named = [one for one in have[key] if value_of(one['uid']) == uid['value']]
                out += ' %s %s' % (word, self.address(named[0]['at']) if named else 'uid %d' % uid['value'])
                if named and value_of(named[0].get('name')):
                    out += ' ' + text_of(named[0]['name'])
        return out

    def simple(self, simple):
        value = '-'
        if simple['string']:
            value = '%s %s' % (self.address(simple['string']['at']), text_of(simple['string']))
        elif simple['binary']:
            value = '%s bytes %d' % (self.address(simple['binary']['at']), simple['binary']['length'])
        return '%s %s %s' % (self.address(simple['at']), text_of(simple['name']), value)


# ---- The comparison ----

class Viewed(Against):
    """What the viewer shows of one recording, against the tools."""

    def __init__(self, name, folder, view, said=None):
        super().__init__(name, folder, said)
        self.view = view
        # For --selftest: changes one answer.
        self.change = lambda words, answer: answer

    def ask(self, *words):
        """Status, standard output and standard error of the viewer."""
        self.counts['answers'] += 1
        status, out, err = self.change(words, self.view(self.name, *words))
        # Control characters are escaped; the texts of the JSON are looked at when it is read.
        if '\0' in out + err or '--json' not in words and '\\x00' in out + err:
            self.fail('%s: a zero byte is shown' % (' '.join(words) or 'plain'))
        return status, out, err

    def keys(self, what, told, *names):
        self.same(what + ' keys', sorted(told), sorted(names))

    # ---- Fields ----

    def texts(self, told):
        """Every text of the JSON, also of parts that are not compared: it has no zero byte, and that of a field is what
        stands at its place before the first zero byte there."""
        if isinstance(told, str) and '\0' in told:
            self.fail('the JSON has a zero byte in the text %r' % told)
        if isinstance(told, dict) and isinstance(told.get('value'), str):
            payload = self.text((told['at'], told['length']))
            self.same('the text at %d' % told['at'], told['value'].encode('utf-8'), before_zero(payload), 'texts')
            self.counts['texts with a zero byte'] += b'\0' in payload
        for one in told.values() if isinstance(told, dict) else told if isinstance(told, list) else []:
            self.texts(one)

    def seen(self, what, ours, parent, *labels):
        """A field against the last of mkvinfo's children with one of the labels: whether it is set, its place, and its
        text, if it is one; mkvinfo shows nothing of an empty text. Answers mkvinfo's element if both have it."""
        last = [e for e in parent.children if e.label in labels][-1:]
        self.same(what + ' place', None if ours is None else (ours['at'], ours['length']),
                  (last[0].at + last[0].header(), last[0].data) if last else None, 'places')
        if ours is None or not last:
            return None
        kind = tools.KINDS.get(last[0].id())
        self.keys(what, ours, *(['at', 'length'] if kind == 'binary' else ['at', 'length', 'value']))
        if kind in ('string', 'utf8'):
            self.same(what + ' text by mkvinfo', ours['value'], last[0].value or '')
        return last[0]

    def number(self, what, ours, parent, label, theirs, name, flag=False):
        """A number or flag, against mkvinfo and against another tool's, which may be Matroska's default for none."""
        element = self.seen(what, ours, parent, label)
        value = value_of(ours)
        if element is not None:
            shown = shown_number(element)
            self.same(what + ' by mkvinfo', value, bool(shown) if flag else shown)
            self.same(what + ' form', type(value), bool if flag else int)
        if ours is None and theirs is not None and not self.children(parent, label) and theirs == DEFAULTS.get(name):
            self.find('default', '%s: %d' % (what, theirs))
        else:
            self.same(what, value, bool(theirs) if flag and theirs is not None else theirs)

    def words(self, what, ours, parent, label, theirs):
        """A text, against mkvinfo's place and text, and another tool's text."""
        self.seen(what, ours, parent, label)
        self.same(what, value_of(ours), theirs)

    def language(self, what, ours, parent, label, isos, ietfs):
        """The last IETF language, or else the last of the older form. The tools show all."""
        self.seen(what, ours, parent, label + ' (IETF BCP 47)' if ietfs else label)
        self.same(what, value_of(ours), (ietfs or isos or [None])[-1])
        if len(isos) + len(ietfs) > 1:
            self.find('languages', '%s: %s' % (what, ' '.join(isos + ietfs)))

    # ---- The parts and the remarks ----

    def rows_below(self, element, start):
        """Our rows below mkvinfo's element: those of its elements, and a CRC-32, which it does not show; none for what
        is inside of a master that is plain bytes for us. Each is its element, address, header and payload length."""
        out = []
        if self.bytes[start:start + 2] == b'\xbf\x84' and int.from_bytes(self.bytes[start + 2:start + 6], 'little') == \
                zlib.crc32(self.bytes[start + 6:element.end()]):
            self.find('crc-32', '%s at %d' % (element.label, start))
            out.append((None, start, 2, 4))
        for child in element.children:
            out.append((child, child.at, child.header(), child.data))
            if tools.KINDS.get(child.id()) != 'master':
                continue
            if child.id() not in PLAIN:
                out += self.rows_below(child, child.at + child.header())
            elif child.children:
                self.find('plain master', '%s at %d: %d elements' % (child.label, child.at, len(child.children)))
        return out

    def parts(self, told):
        """The four parts: our answers with mkvinfo's element, or None where it is not to be compared."""
        out = []
        self.same('the names of the parts', [(p['name'], p['id']) for p in told['parts']],
                  [(label, '%X' % ident) for label, (ident, _) in PARTS.items()])
        for one in told['parts']:
            part, label = Part(one), one['name']
            self.keys(label, one, 'name', 'id', 'state', *(
                ('heads', 'at', 'size', 'rows') if part.found() else ('heads', 'stands') if part.refused is None else
                ('refused', 'refused_at', 'there', 'meaning', 'where', 'next', 'stands')),
                *(['entry'] if part.refused == 8 else []))
            self.same(label + ' state', part.state, 'found' if part.found() else 'absent' if part.refused is None else
                      'refused')
            element = self.place(label, part)
            rows = self.rows_below(element, part.at) if element is not None else []
            if element is not None:
                self.same(label + ' rows', part.rows, len(rows))
            if not part.found():
                self.same(label + ' stands', part.stands, self.stands(label))
            if part.refused is not None:
                self.same(label + ' words', (part.meaning, part.where, part.next), REFUSALS.get(part.refused))
                self.same(label + ' there', part.there, self.there(part.refused_at))
            if part.refused == 8:
                # The entry whose position is too large: in these recordings the part's own.
                self.same(label + ' entry', part.entry, one['id'])
            out.append((part, element, rows))
        return out

    def stands(self, label):
        """Where mkvinfo shows the part in the segment, if not behind an element of unknown size. Of a segment without
        bytes it shows nothing; then the bytes behind it tell."""
        info = self.tools.info
        if info.segment.data == 0:
            shown = [at for at, ident in self.behind(info.start()) if ident == PARTS[label][0]]
            return shown[0] if shown else None
        children = info.level1()
        opened = [k for k, e in enumerate(children) if e.size is None][:1]
        shown = [e.at for e in children[:opened[0] if opened else None] if e.label == label]
        return shown[0] if shown else None

    def behind(self, at):
        """The elements one behind the other from an address on, as far as they can be read: addresses and ids."""
        while at < len(self.bytes) and self.header_fault(at) is None:
            width = 9 - self.bytes[at].bit_length()
            size = 9 - self.bytes[at + width].bit_length()
            ident = int.from_bytes(self.bytes[at:at + width], 'big')
            yield at, ident
            data = int.from_bytes(self.bytes[at + width:at + width + size], 'big') - (1 << 7 * size)
            at += width + size + data

    def expected(self, parts):
        """The remarks that the file deserves, by mkvinfo's facts: their words' names and what they have to tell."""
        info, length, out = self.tools.info, len(self.bytes), []
        segment, start = info.segment, info.start()
        astray = any(part.refused in (1, 2, 3) for part, _, _ in parts)
        opened = [e for e in info.level1() if e.size is None][:1]
        if segment.data is None:
            out += [('endless',)] if astray else []
        elif segment.data == 0 and start < length:
            out.append(('no bytes', str(length - start)))
        elif start + segment.data > length:
            out.append(('cut off', str(start + segment.data), str(length)))
        for e in opened:
            out += [('unknown size', e.label, str(e.at))] if astray else []
            out += [('in a frame', part.name, str(part.at), e.label, str(e.at)) for part, _, _ in parts
                    if part.found() and part.heads == 0 and part.at > e.at]
        for part, element, _ in parts:
            out += self.on_part(part, element, start)
        return out

    def on_part(self, part, element, start):
        """The remarks on one part: of each part the first beside the one that is shown, unless they are the same."""
        info, out, stands = self.tools.info, [], self.stands(part.name)
        entries = [where for head in info.heads() for number, where in info.entries(head) if number == part.id]
        if part.refused == 8 and entries and entries[-1] - start == ONES:
            out.append(('unfilled', part.name))
        if part.found():
            others = [e for e in info.level1(part.name) if element is not None and e is not element and
                      self.text((e.at + e.header(), e.data)) != self.text((part.at, part.size))]
            return out + [('twice', part.name, str(element.at), str(e.at)) for e in others[:1]]
        if stands is None:
            return out
        if part.refused is None:
            out.append(('outside' if info.segment.data == 0 else 'not named', part.name, str(stands)))
        elif 8 <= part.refused <= 11:
            out.append(('not trusted', part.name, str(stands)))
        elif part.refused <= 3 and entries and entries[-1] != stands:
            out.append(('elsewhere', part.name, str(stands)))
        return out

    def remarks(self, told, parts):
        """The remarks of the JSON, which are those that the file deserves. Answers the refusals that they explain."""
        said, explained = [], set()
        for one in told['remarks']:
            self.keys('remark', one, 'remark', 'next')
            for name, pattern, refusals in REMARKS:
                match = re.fullmatch(pattern, one['remark'])
                if match:
                    said.append((name, *match.groups()))
                    explained |= refusals
                    if name == 'elsewhere':
                        explained |= {part.refused for part, _, _ in parts if part.name == match.group(1)}
                    break
            else:
                self.fail('a remark that is not understood: %r' % one['remark'])
        self.same('remarks', said, self.expected(parts))
        self.counts['remarks'] += len(said)
        return explained

    def there(self, at):
        """The id of the header at an address, in digits; None where there is none."""
        if at >= len(self.bytes) or self.header_fault(at) is not None:
            return None
        return self.bytes[at:at + 9 - self.bytes[at].bit_length()].hex().upper()

    def refusal(self, part):
        if part.refused_at >= len(self.bytes):
            there = 'past the end of the file'
        elif part.there is None:
            there = 'where no header can be read'
        else:
            there = 'where %s %s stands' % (part.there, ELEMENTS.get(int(part.there, 16), '-'))
        return '%s: refused %d%s at %d/0x%X, %s: %s' % (
            part.name, part.refused, ' ' + part.entry if part.entry else '', part.refused_at, part.refused_at, there,
            part.meaning)

    def note(self, parts):
        """That live mode may find more: a size is unknown, and a part is absent though no seek head says so."""
        info = self.tools.info
        endless = info.segment.size is None or any(e.label == 'Cluster' and e.size is None for e in info.level1())
        walked = any(part.state == 'absent' and not info.heads() for part, _, _ in parts)
        return NOTE if endless and walked and info.segment.data != 0 else None

    def errors(self, told, parts, explained, plain):
        """The lines on standard error: absent parts in the plain form, refused parts, remarks, and each advice once."""
        absent = [part.name for part, _, _ in parts if part.state == 'absent' and part.stands is None]
        out = ['not in the recording: ' + ', '.join(absent)] if plain and absent and \
            self.tools.info.segment.data != 0 else []
        out += [told['note']] if plain and told['note'] else []
        out += [self.refusal(part) for part, _, _ in parts if part.refused is not None]
        out += [one['remark'] for one in told['remarks']]
        advice = [one['next'] for one in told['remarks'] if one['next']]
        advice += [part.next for part, _, _ in parts if part.refused is not None and part.refused not in explained]
        out += ['what to do: ' + one for one in dict.fromkeys(advice)]
        return ''.join('stages: %s: %s\n' % (self.name, line) for line in out)

    # ---- Chapters ----

    def chapters(self, told, element):
        xml = self.tools.chapters
        listed = xml.findall('EditionEntry') if xml is not None else []
        shown = self.children(element, 'Edition entry')
        self.same('editions by mkvextract', len(told), len(listed))
        self.same('editions by mkvinfo', [e['at'] for e in told], [e.at for e in shown])
        for ours, seen, edition in zip(told, shown, listed):
            what = 'edition at %d' % seen.at
            self.counts['editions'] += 1
            self.keys(what, ours, 'at', 'uid', 'hidden', 'default', 'ordered', 'atoms')
            for key, name, label in (('uid', 'EditionUID', 'Edition UID'),
                                     ('hidden', 'EditionFlagHidden', 'Edition flag hidden'),
                                     ('default', 'EditionFlagDefault', 'Edition flag default'),
                                     ('ordered', 'EditionFlagOrdered', 'Edition flag ordered')):
                self.xml_number('%s %s' % (what, key), ours[key], seen, label, edition, name, key != 'uid')
            self.atoms(what, ours['atoms'], seen, edition)

    def xml_number(self, what, ours, seen, label, xml, name, flag=False):
        theirs = xml.findtext(name)
        self.number(what, ours, seen, label, None if theirs is None else int(theirs), name, flag)

    def nested(self, above, name, level=0, parent=None):
        """The XML elements of a name below another one, in the order of the file, with level and parent."""
        for one in above.findall(name):
            yield one, level, parent
            yield from self.nested(one, name, level + 1, one)

    def tree(self, what, ours, seen, label, xml, name):
        """Records that nest: ours have the levels and parents of both tools. Answers them side by side."""
        shown = [e for e in seen.below() if e.label == label]
        listed = list(self.nested(xml, name))
        self.same(what + ': count by mkvextract', len(ours), len(listed))
        if not self.same(what + ': by mkvinfo', [(one['at'], one['parent'], one['level']) for one in ours],
                         [(e.at, None if e.parent is seen else e.parent.at, e.depth - seen.depth - 1) for e in shown]):
            return []
        # By mkvextract: the record whose element is the parent's.
        places = {id(element): one['at'] for one, (element, _, _) in zip(ours, listed)}
        self.same(what + ': by mkvextract', [(one['level'], one['parent']) for one in ours],
                  [(level, None if parent is None else places.get(id(parent))) for _, level, parent in listed])
        return [(one, e, element) for one, e, (element, _, _) in zip(ours, shown, listed)]

    def atoms(self, what, told, edition, xml):
        for ours, seen, atom in self.tree(what, told, edition, 'Chapter atom', xml, 'ChapterAtom'):
            where = 'atom at %d' % seen.at
            self.counts['atoms'] += 1
            self.counts['nested atoms'] += ours['level'] > 0
            self.keys(where, ours, 'at', 'parent', 'level', 'uid', 'start', 'end', 'hidden', 'enabled', 'marks', 'name',
                      'displays')
            self.xml_number(where + ' uid', ours['uid'], seen, 'Chapter UID', atom, 'ChapterUID')
            for key, name, label in (('start', 'ChapterTimeStart', 'Chapter time start'),
                                     ('end', 'ChapterTimeEnd', 'Chapter time end')):
                text = atom.findtext(name)
                self.number('%s %s' % (where, key), ours[key], seen, label,
                            None if text is None else tools.time_of(text), name)
            for key, name, label in (('hidden', 'ChapterFlagHidden', 'Chapter flag hidden'),
                                     ('enabled', 'ChapterFlagEnabled', 'Chapter flag enabled')):
                self.xml_number('%s %s' % (where, key), ours[key], seen, label, atom, name, True)
            self.same(where + ' marks', ours['marks'],
                      (['hidden'] if atom.findtext('ChapterFlagHidden') == '1' else []) +
                      (['disabled'] if atom.findtext('ChapterFlagEnabled') == '0' else []))
            self.displays(where, ours, seen, atom)

    def displays(self, what, ours, seen, atom):
        shown, listed = self.children(seen, 'Chapter display'), atom.findall('ChapterDisplay')
        self.same(what + ' displays by mkvextract', len(ours['displays']), len(listed))
        self.same(what + ' displays', [d['at'] for d in ours['displays']], [e.at for e in shown])
        for one, element, display in zip(ours['displays'], shown, listed):
            where = 'display at %d' % element.at
            self.counts['displays'] += 1
            self.keys(where, one, 'at', 'string', 'language')
            self.words(where, one['string'], element, 'Chapter string', display.findtext('ChapterString'))
            self.language(where + ' language', one['language'], element, 'Chapter language',
                          [e.text or '' for e in display.findall('ChapterLanguage')],
                          [e.text or '' for e in display.findall('ChapLanguageIETF')])
        # The name is the first string that is set. An empty one is no name, and no other takes its place.
        first = next((d['string'] for d in ours['displays'] if d['string']), None)
        self.same(what + ' name', ours['name'], first if value_of(first) else None)
        self.counts['empty names of stages'] += value_of(first) == ''

    # ---- Tags ----

    def tags(self, told, element):
        xml = self.tools.tags
        listed = xml.findall('Tag') if xml is not None else []
        shown = self.children(element, 'Tag')
        self.same('tags by mkvextract', len(told), len(listed))
        self.same('tags by mkvinfo', [t['at'] for t in told], [e.at for e in shown])
        for ours, seen, tag in zip(told, shown, listed):
            what = 'tag at %d' % seen.at
            self.counts['tags'] += 1
            self.keys(what, ours, 'at', 'target', 'simple')
            self.target(what, ours['target'], self.children(seen, 'Targets')[-1:], tag.find('Targets'))
            self.simples(what, ours['simple'], seen, tag)

    def target(self, what, ours, shown, xml):
        self.same(what + ' target', ours and ours['at'], shown[0].at if shown else None)
        self.same(what + ' target by mkvextract', ours is not None, xml is not None)
        if ours is None or not shown or xml is None:
            return
        self.keys(what + ' target', ours, 'at', 'value', 'type', *[key for key, _, _, _ in UIDS])
        self.xml_number(what + ' value', ours['value'], shown[0], 'Target type value', xml, 'TargetTypeValue')
        self.words(what + ' type', ours['type'], shown[0], 'Target type', xml.findtext('TargetType'))
        for key, _, name, label in UIDS:
            elements, uids = self.children(shown[0], label), ours[key]
            for uid in uids:
                self.keys('%s %s' % (what, key), uid, 'at', 'length', 'value')
            self.same('%s %s' % (what, key), [(uid['at'], uid['length'], uid['value']) for uid in uids],
                      [(e.at + e.header(), e.data, shown_number(e)) for e in elements])
            self.same('%s %s by mkvextract' % (what, key), [uid['value'] for uid in uids],
                      [int(e.text) for e in xml.findall(name)])
            self.counts['uids'] += len(uids)

    def simples(self, what, told, tag, xml):
        for ours, seen, simple in self.tree(what, told, tag, 'Simple', xml, 'Simple'):
            where = 'simple tag at %d' % seen.at
            self.counts['simple tags'] += 1
            self.counts['nested simple tags'] += ours['level'] > 0
            self.keys(where, ours, 'at', 'parent', 'level', 'name', 'language', 'default', 'string', 'binary')
            self.words(where + ' name', ours['name'], seen, 'Name', simple.findtext('Name'))
            self.language(where + ' language', ours['language'], seen, 'Tag language',
                          [e.text or '' for e in simple.findall('TagLanguage')],
                          [e.text or '' for e in simple.findall('TagLanguageIETF')])
            self.xml_number(where + ' default', ours['default'], seen, 'Default language', simple, 'DefaultLanguage',
                            True)
            self.words(where + ' string', ours['string'], seen, 'String', simple.findtext('String'))
            self.seen(where + ' binary', ours['binary'], seen, 'Binary')
            bytes_of = None if ours['binary'] is None else self.text((ours['binary']['at'], ours['binary']['length']))
            binary = simple.findtext('Binary')
            self.same(where + ' binary', bytes_of, None if binary is None else bytes.fromhex(binary))

    # ---- Tracks and attachments ----

    def tracks(self, told, element):
        listed, shown = self.tools.identified.get('tracks', []), self.children(element, 'Track')
        self.same('tracks by mkvmerge', len(told), len(listed))
        self.same('tracks by mkvinfo', [t['at'] for t in told], [e.at for e in shown])
        for ours, seen, theirs in zip(told, shown, listed):
            what, properties = 'track at %d' % seen.at, theirs['properties']
            self.counts['tracks'] += 1
            self.keys(what, ours, 'at', 'number', 'uid', 'type', 'kind', 'name', 'language', 'codec')
            self.number(what + ' number', ours['number'], seen, 'Track number', properties['number'], 'number')
            self.number(what + ' uid', ours['uid'], seen, 'Track UID', properties['uid'], 'uid')
            kind = self.seen(what + ' type', ours['type'], seen, 'Track type')
            self.same(what + ' type by mkvinfo', TYPES.get(value_of(ours['type'])),
                      kind and kind.value.rstrip('s'))
            self.same(what + ' kind', ours['kind'], theirs['type'].rstrip('s'))
            named = self.seen(what + ' name', ours['name'], seen, 'Name')
            if named is not None and not before_zero(self.payload(named)) and properties.get('track_name') is None:
                self.find('empty name', what)
            else:
                self.words(what + ' name', ours['name'], seen, 'Name', properties.get('track_name'))
            self.words(what + ' codec', ours['codec'], seen, 'Codec ID', properties['codec_id'])
            self.track_language(what, ours['language'], seen, properties)

    def track_language(self, what, ours, seen, properties):
        """mkvmerge shows both forms; the older one also where it is not there."""
        isos, ietfs = self.children(seen, 'Language'), self.children(seen, 'Language (IETF BCP 47)')
        self.language(what + ' language', ours, seen, 'Language', [e.value for e in isos], [e.value for e in ietfs])
        if not isos and properties['language'] == DEFAULTS['Language']:
            self.find('default', '%s language: %s' % (what, properties['language']))
        else:
            self.same(what + ' language by mkvmerge', [e.value for e in isos[-1:]], [properties['language']])
        self.same(what + ' newer language by mkvmerge', ietfs[-1].value if ietfs else None,
                  properties.get('language_ietf'))

    def attachments(self, told, element):
        listed, shown = self.tools.identified.get('attachments', []), self.children(element, 'Attached')
        self.same('attachments by mkvmerge', len(told), len(listed))
        self.same('attachments by mkvinfo', [a['at'] for a in told], [e.at for e in shown])
        for ours, seen, theirs, data in zip(told, shown, listed, self.tools.attached):
            what = 'attachment at %d' % seen.at
            self.counts['attachments'] += 1
            self.keys(what, ours, 'at', 'uid', 'name', 'type', 'description', 'data')
            self.number(what + ' uid', ours['uid'], seen, 'File UID', theirs['properties']['uid'], 'uid')
            self.words(what + ' name', ours['name'], seen, 'File name', theirs['file_name'])
            self.words(what + ' type', ours['type'], seen, 'MIME type', theirs['content_type'])
            if self.seen(what + ' description', ours['description'], seen, 'File description') is None and \
                    theirs['description'] == '':
                self.find('description', what)
            else:
                self.words(what + ' description', ours['description'], seen, 'File description', theirs['description'])
            self.seen(what + ' data', ours['data'], seen, 'File data')
            bytes_of = None if ours['data'] is None else self.text((ours['data']['at'], ours['data']['length']))
            self.same(what + ' data', bytes_of == data, True)

    # ---- Addresses ----

    def row_lines(self, lines, name, rows, address):
        """The line on a row, which is the innermost of the rows that hold the address, and those on the masters around
        it, from the outside in. They are taken off the lines."""
        line = lines.pop(0) if lines else ''
        match = ROW.fullmatch(line)
        if not match:
            self.fail('address %d: %r is not understood' % (address, line[:100]))
            return
        around = [k for k, (_, at, header, data) in enumerate(rows) if at <= address < at + header + data]
        index = around.pop()
        element, at, header, data = rows[index]
        kind, text = tools.KINDS.get(element.id(), 'binary') if element is not None else 'binary', None
        if element is not None and element.id() in PLAIN:
            self.find('plain bytes', 'the row at %d: id %X, %s by Matroska' % (at, element.id(), kind))
            kind = 'binary'
        if kind in ('string', 'utf8'):
            text = escaped(before_zero(self.text((at + header, data))).decode('utf-8'), False)
        self.same('address %d' % address, match.groups(), (
            name, str(index), 'header' if address < at + header else 'payload',
            '%X' % (CRC if element is None else element.id()), kind, str(at), str(header), str(at + header), str(data),
            text))
        for k in around:
            element, at, header, data = rows[k]
            match = IN_ROW.fullmatch(lines.pop(0) if lines else '')
            self.same('address %d: in row %d' % (address, k), match and match.groups(), (
                str(k), '%X' % element.id(), str(at), str(header), str(at + header), str(data)))

    def file_lines(self, lines, chain, address):
        """The line on an element by the order of the file, and those on the masters around it: their headers are at the
        addresses of the chain, and hold what the bytes there say."""
        for k, at in enumerate(chain[-1:] + chain[:-1]):
            width = 9 - self.bytes[at].bit_length()
            size = 9 - self.bytes[at + width].bit_length()
            data = int.from_bytes(self.bytes[at + width:at + width + size], 'big') - (1 << 7 * size)
            start, behind = at + width + size, ''
            if data == (1 << 7 * size) - 1:
                behind = ', a size that is not known'
            elif start + data > len(self.bytes):
                behind = ', but the file ends at %d' % len(self.bytes)
            match = IN_FILE.fullmatch(lines.pop(0) if lines else '')
            self.same('address %d: in the file' % address, match and match.groups(), (
                None if k > 0 else 'header' if address < start else 'payload', self.bytes[at:at + width].hex().upper(), str(at), str(width + size),
                str(start), str(data), behind))

    def entry_line(self, line, seek, address):
        """A line on a seek entry: where it leads, and what stands there."""
        info = self.tools.info
        match = ENTRY.fullmatch(line)
        if not match:
            self.fail('address %d: %r is not understood' % (address, line[:100]))
            return
        # As if the head had this entry alone.
        head = tools.Element(1, 'Seek head', None, 0, 0, 0)
        head.children = [seek]
        number, where = info.entries(head)[0]
        at, told, position, leads = match.groups()
        self.same('address %d: entry' % address, (int(at), int(told, 16), int(position)),
                  (seek.at, number, where - info.start()))
        self.counts['entries'] += 1
        if where - info.start() == ONES:
            self.same('address %d: leads' % address, leads, 'was never filled in')
            self.find('unfilled', 'entry at %d, for %X' % (seek.at, number))
            return
        if where >= len(self.bytes):
            self.same('address %d: leads' % address, leads, 'leads to %d, past the end of the file' % where)
            self.find('cut off', 'entry at %d: to %d of %d bytes' % (seek.at, where, len(self.bytes)))
            return
        if self.header_fault(where):
            self.same('address %d: leads' % address, leads, 'leads to %d, where no header can be read: %s' % (
                where, REFUSALS[self.header_fault(where)][0]))
            self.find('stale', 'entry at %d: to %d, where there is no header' % (seek.at, where))
            return
        stands = [e.id() for e in info.level1() if e.at == where]
        match = LEADS.fullmatch(leads)
        if not self.same('address %d: leads' % address, match and int(match.group(1)), where):
            return
        self.same('address %d: stale' % address, match.group(3) is not None, number not in stands)
        if stands:
            self.same('address %d: stands' % address, int(match.group(2), 16), stands[0])
        else:
            # mkvinfo has no element there: the id is what the bytes say.
            size = 9 - self.bytes[where].bit_length()
            self.same('address %d: stands' % address, int(match.group(2), 16),
                      int.from_bytes(self.bytes[where:where + size], 'big'))
            self.find('stale', 'entry at %d: to %d, where no element of mkvinfo\'s is' % (seek.at, where))

    def whose(self, parts, address, rows=None, seek=None, chain=None):
        """One address: the lines for the seek head that it lies in, by its rows, and for the entry, if they are given;
        those for the parts; and if it is in no part, those for the chain of headers that lead to it, which goes on with
        the rows of the seek head. Answers what the viewer answered."""
        status, out, err = self.ask(str(address))
        self.counts['addresses'] += 1
        lines = out.split('\n')
        self.same('address %d: the last line' % address, lines.pop(), '')
        if rows is not None:
            self.row_lines(lines, 'SeekHead', rows, address)
            chain = chain + [at for _, at, header, data in rows if at <= address < at + header + data]
            if seek is not None:
                self.entry_line(lines.pop(0) if lines else '', seek, address)
        for part, _, inside in parts:
            if part.found() and part.at <= address < part.at + part.size:
                self.row_lines(lines, part.name, inside, address)
                chain = None
        if chain is not None:
            self.file_lines(lines, chain, address)
        self.same('address %d: lines' % address, lines, [])
        self.same('address %d: status' % address, status, 1 if self.faults else 0)
        self.same('address %d: standard error' % address, err, self.faults)
        return status, out, err

    def hexed(self, address, plain):
        """With --hex each address has its hexadecimal form too, and all else is as in the plain answer."""
        status, out, err = self.ask('--hex', str(address))
        pairs = re.findall(r'(\d+)/0x([0-9A-F]+)', out)
        self.same('address %d with --hex' % address, (status, re.sub(r'/0x[0-9A-F]+', '', out), err), plain)
        self.same('address %d: in hexadecimal' % address, [int(digits, 16) for _, digits in pairs],
                  [int(number) for number, _ in pairs])
        # Two ranges of a row or element, the end of the file, and of an entry its address and the one that it leads to,
        # if it leads anywhere.
        rows, ends, entries, leads = (len(re.findall(pattern, out, re.M)) for pattern in (
            r'^(?:\w+|  in) row |^(?:file \w+|  in) id ', r', but the file ends at \d', r'^entry ',
            r'^entry .* leads to \d'))
        self.same('address %d: count in hexadecimal' % address, len(pairs), 2 * rows + ends + entries + leads)

    def addresses(self, parts):
        """The first byte of the segment, and of its children before one of unknown size: of each seek head, of the
        first three others and of the last. Of each such seek head some bytes: of its first and last entry those of the
        header, the id and the position. Then some of each part."""
        info = self.tools.info
        children = info.level1()
        opened = [k for k, e in enumerate(children) if e.size is None][:1]
        children = children[:opened[0] if opened else None]
        # A segment of size 0 holds nothing, and what follows it stands beside it.
        above = [] if info.segment.data == 0 else [info.segment.at]
        self.hexed(info.segment.at, self.whose(parts, info.segment.at, chain=[info.segment.at]))
        others = [e for e in children if e.label != 'Seek head']
        for child in others[:3] + others[3:][-1:]:
            self.whose(parts, child.at, chain=above + [child.at])
        for head in [e for e in children if e.label == 'Seek head']:
            rows = self.rows_below(head, head.at + head.header())
            self.hexed(head.at, self.whose(parts, head.at, chain=above + [head.at]))
            seeks = [e for e in head.children if e.label == 'Seek entry']
            for seek in seeks[:1] + seeks[1:][-1:]:
                self.hexed(seek.at, self.whose(parts, seek.at, rows, seek, above + [head.at]))
                for field in seek.children:
                    self.whose(parts, field.end() - 1, rows, seek, above + [head.at])
            for other in [e for e in head.children if e not in seeks]:
                self.whose(parts, other.at, rows, chain=above + [head.at])
        for part, element, rows in parts:
            if element is None or not rows:
                continue
            # A row in the middle, one that is plain bytes for us alone, and the first and last text with a zero byte.
            plain = [row for row in rows if row[0] is not None and row[0].id() in PLAIN]
            padded = [row for row in rows if row[0] is not None and tools.KINDS.get(row[0].id()) in ('string', 'utf8')
                      and b'\0' in self.payload(row[0])]
            for _, at, header, data in [rows[len(rows) // 2]] + plain[:1] + padded[:1] + padded[1:][-1:]:
                for address in sorted({at + header - 1, min(at + header + data // 2, part.at + part.size - 1)}):
                    self.whose(parts, address)
            self.hexed(part.at, self.whose(parts, part.at))
        self.same('the address behind the last byte', self.ask(str(len(self.bytes))),
                  (1, '', 'stages: %s: the address is past the last byte\n' % self.name))

    # ---- All of it ----

    def all(self):
        status, out, err = self.ask('--json')
        try:
            told = json.loads(out, object_pairs_hook=distinct)
        except ValueError as fault:
            self.fail('status %d, and the JSON can\'t be read: %s' % (status, fault))
            return self
        self.keys('the JSON', told, 'length', 'mode', 'parts', 'remarks', 'note', 'editions', 'tags', 'tracks',
                  'attachments')
        self.same('length', told['length'], len(self.bytes))
        self.same('mode', told['mode'], 'plain')
        self.texts(told)
        parts = self.parts(told)
        self.same('note', told['note'], self.note(parts))
        odd = bool(told['remarks']) or any(part.refused is not None for part, _, _ in parts)
        explained = self.remarks(told, parts)
        # The same lines for each way of asking, but that the plain one tells absent parts too.
        self.faults = self.errors(told, parts, explained, False)
        self.same('status', status, 1 if odd else 0)
        self.same('standard error', err, self.faults)
        for (part, element, _), key, compare in zip(parts, ('tracks', 'attachments', 'editions', 'tags'),
                                                    (self.tracks, self.attachments, self.chapters, self.tags)):
            if element is not None:
                compare(told[key], element)
            elif not part.found():
                self.same('%s of a part that is not found' % key, told[key], [])
        if self.wrong:
            # What is held to the JSON needs a right one.
            return self
        for words in ([], ['--hex']):
            what = ' '.join(['plain', *words])
            status, out, err = self.ask(*words)
            self.same(what + ': status', status, 1 if odd else 0)
            self.same(what + ': standard error', err, self.errors(told, parts, explained, True))
            self.same_lines(what, out, Text(told, bool(words)).lines())
        self.addresses(parts)
        return self

    def same_lines(self, what, out, expected):
        lines = out.split('\n')
        self.same(what + ': the last line', lines.pop(), '')
        self.same(what + ': count of lines', len(lines), len(expected))
        for k, (line, one) in enumerate(zip(lines, expected)):
            self.counts['lines'] += 1
            if line != one:
                self.fail('%s, line %d: %r, and the JSON says %r' % (what, k + 1, line, one))
                break


def distinct(pairs):
    """An object of the JSON; json.loads alone would pass over a key that is there twice."""
    if len(dict(pairs)) != len(pairs):
        raise ValueError('a key is there twice: %r' % [key for key, _ in pairs])
    return dict(pairs)


def viewer(command, folder):
    """Runs the viewer on a recording of the folder. A signal is a status too."""
    def view(name, *words):
        options = [word for word in words if word.startswith('--')]
        done = subprocess.run(command + [*options, name, *words[len(options):]], stdin=subprocess.DEVNULL,
                              stdout=subprocess.PIPE, stderr=subprocess.PIPE, cwd=folder)
        return done.returncode, done.stdout.decode('utf-8', 'replace'), done.stderr.decode('utf-8', 'replace')
    return view


def main():
    words = sys.argv[1:]
    selftest = words[:1] == ['--selftest']
    words = words[1:] if selftest else words
    if len(words) < 2:
        sys.exit('usage: real/stages.py [--selftest] FOLDER VIEWER..')
    folder, view = words[0], viewer(words[1:], words[0])
    if selftest:
        import selftest as tests
        sys.exit(tests.run_viewer(folder, view, Viewed, tools))
    with open(os.path.join(folder, 'list'), encoding='utf-8') as file:
        names = [line.split('\t')[0] for line in file]
    with open(os.path.join(folder, 'stages.txt'), 'w', encoding='utf-8') as log:
        tally = Tally(log)
        for name in names:
            one = Viewed(name, folder, view).all()
            if one.wrong:
                print('%s: UNEXPLAINED %d' % (name, len(one.wrong)), flush=True)
            tally.add(one)
    tally.tell()
    counts = tally.totals
    print('stages: %d recordings, %d editions, %d atoms, %d tags, %d simple tags, %d tracks, %d attachments, '
          '%d lines, %d addresses, %d findings, %d unexplained' % (
              len(names), *[counts[key] for key in ('editions', 'atoms', 'tags', 'simple tags', 'tracks', 'attachments',
                                                    'lines', 'addresses')], tally.findings(), tally.unexplained))
    sys.exit(1 if tally.unexplained else 0)


if __name__ == '__main__':
    main()
