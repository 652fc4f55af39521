# What mkvinfo, mkvextract, mkvmerge and ffprobe say of a recording, as plain values. Nothing here asks our reader.
import json
import os
import re
import subprocess
import xml.etree.ElementTree as ElementTree

ENVIRONMENT = dict(os.environ, LC_ALL='C.UTF-8', LANG='C.UTF-8')
LINE = re.compile(r'^(\|? *)\+ (.*) at (\d+) size (?:is unknown|(\d+) data size (\d+)|(\d+))$', re.S)
OPENS = re.compile(r'^\|? *\+ ')
UNKNOWN = re.compile(r'^\(Unknown element: .*; ID: 0x([0-9a-fA-F]+) size: \d+\)$')


def names():
    """The labels of mkvinfo, from names.txt: (parent, label) to id and type."""
    out = {}
    with open(os.path.join(os.path.dirname(os.path.abspath(__file__)), 'names.txt'), encoding='utf-8') as file:
        for line in file:
            if line.strip() and not line.startswith('#'):
                parent, label, number, kind = line.rstrip('\n').split('\t')
                out[parent, label] = (int(number, 16), kind)
    return out


NAMES = names()
KINDS = {number: kind for number, kind in NAMES.values()}


class Element:
    """An element as mkvinfo shows it. `size` is the whole element's, `data` the payload's; None where unknown."""

    def __init__(self, depth, label, value, at, size, data):
        self.depth, self.label, self.value, self.at, self.size, self.data = depth, label, value, at, size, data
        self.parent = None
        self.children = []

    def id(self):
        """By its label; None if names.txt does not have it."""
        if self.label == 'EBML void':
            return 0xEC
        unknown = UNKNOWN.match(self.label)
        if unknown:
            return int(unknown.group(1), 16)
        found = NAMES.get((self.parent.label if self.parent else '', self.label))
        return found[0] if found else None

    def below(self):
        for child in self.children:
            yield child
            yield from child.below()

    def header(self):
        return self.size - self.data

    def end(self):
        return self.at + self.size


def call(*words):
    done = subprocess.run(words, stdin=subprocess.DEVNULL, stdout=subprocess.PIPE, stderr=subprocess.PIPE,
                          env=ENVIRONMENT)
    return done.returncode, done.stdout.decode('utf-8', 'replace')


def split_lines(text):
    """mkvinfo's lines; a value may hold line feeds, and such lines belong to the one before."""
    whole = []
    for line in text.split('\n'):
        if OPENS.match(line) or not whole:
            whole.append(line)
        else:
            whole[-1] += '\n' + line
    if whole and whole[-1].endswith('\n'):
        whole[-1] = whole[-1][:-1]
    return whole


class Info:
    """mkvinfo's whole tree of a recording."""

    def __init__(self, path):
        _, text = call('mkvinfo', '-a', '-P', '-z', '-v', '-v', '-v', path)
        self.top, self.unread = [], []
        stack = []
        for line in split_lines(text):
            shown = LINE.match(line)
            if not shown:
                self.unread.append(line)
                continue
            prefix, told, at, size, data, frame = shown.groups()
            if frame:
                continue
            if UNKNOWN.match(told):
                label, value = told, None
            else:
                label, _, value = told.partition(': ')
                value = value if _ else None
            element = Element(len(prefix), label, value, int(at), int(size) if size else None,
                              int(data) if data else None)
            stack = stack[:element.depth]
            if stack:
                element.parent = stack[-1]
                stack[-1].children.append(element)
            else:
                self.top.append(element)
            stack.append(element)
        segments = [element for element in self.top if element.label == 'Segment']
        self.segment = segments[0] if segments else None

    def level1(self, label=None):
        return [e for e in self.segment.children if label is None or e.label == label]

    def start(self):
        """The address after the segment's header, from the recording's own bytes: mkvinfo does not show it where
        the size is unknown."""
        return self.segment.children[0].at if self.segment.size is None else self.segment.at + self.segment.header()

    def entries(self, head):
        """The entries of a seek head: pairs of the id and the address that the position leads to."""
        out = []
        for seek in head.children:
            number = position = None
            for field in seek.children:
                if field.label == 'Seek ID':
                    number = int(''.join(re.findall(r'0x([0-9a-f]{2})', field.value)), 16)
                elif field.label == 'Seek position':
                    position = int(field.value)
            out.append((number, None if position is None else self.start() + position))
        return out

    def heads(self):
        """The first seek head and those that are linked from it, in the order in which they are reached."""
        at = {head.at: head for head in self.level1('Seek head')}
        reached = self.level1('Seek head')[:1]
        while reached:
            linked = [where for number, where in self.entries(reached[-1]) if number == 0x114D9B74]
            if not linked or linked[-1] not in at or at[linked[-1]] in reached:
                break
            reached.append(at[linked[-1]])
        return reached


def time_of(text):
    hours, minutes, rest = text.split(':')
    seconds, _, fraction = rest.partition('.')
    return ((int(hours) * 60 + int(minutes)) * 60 + int(seconds)) * 10 ** 9 + int((fraction + '0' * 9)[:9])


def parse_xml(path):
    return ElementTree.parse(path).getroot() if os.path.exists(path) else None


class Tools:
    """Everything that the tools say of one recording. `folder` takes what they extract."""

    def __init__(self, path, folder):
        self.info = Info(path)
        _, text = call('mkvmerge', '-J', path)
        self.identified = json.loads(text)
        _, text = call('ffprobe', '-v', 'error', '-show_chapters', '-show_streams', '-show_format', '-of', 'json',
                            path)
        self.probed = json.loads(text or '{}')
        os.makedirs(folder, exist_ok=True)
        for name in os.listdir(folder):
            os.remove(os.path.join(folder, name))
        ids = [a['id'] for a in self.identified.get('attachments', [])]
        words = ['mkvextract', path, 'chapters', os.path.join(folder, 'chapters.xml'), 'tags',
                 os.path.join(folder, 'tags.xml')]
        if ids:
            words += ['attachments'] + ['%d:%s' % (i, os.path.join(folder, 'attached-%d' % i)) for i in ids]
        # Status 2: mkvextract gives up on the recording.
        self.extracts = call(*words)[0] < 2
        self.chapters = parse_xml(os.path.join(folder, 'chapters.xml'))
        self.tags = parse_xml(os.path.join(folder, 'tags.xml'))
        self.attached = []
        for i in ids:
            name = os.path.join(folder, 'attached-%d' % i)
            if os.path.exists(name):
                with open(name, 'rb') as file:
                    self.attached.append(file.read())
            else:
                self.attached.append(None)
