#!/usr/bin/env python3
# Live recordings and killed recorders, in live mode: real/live.py [--selftest] FOLDER SAMPLES PARTS.. -- VIEWER..
# It makes them in FOLDER by ffmpeg, mkvtoolnix and, where it is on the machine, GStreamer; some of them and of SAMPLES,
# the repository's own, are cut at every byte. The words behind are the commands that run real/parts and the viewer.
# What the C face says in live mode is compared with what mkvinfo and ffprobe say of the same file, and of the cuts with
# the rule: where the Segment has an unknown size and there is no seek head, a part that stands whole before the cut is
# found, and another is absent or 1 with its place. With a head, or a Segment of size 0, it is what these say: found,
# absent, 1, 8 or 9, which are counted. What `open` says is compared with mkvinfo and held beside the four searches.
# --selftest changes our answers one at a time, and sees that it is noticed.
#
# The last line is 'live: N recordings, .., 0 unexplained'. Status 1 if anything is unexplained.
import collections
import json
import os
import re
import shutil
import signal
import subprocess
import sys

import make
import tools
from against import INFO
from answers import Opened
from make import BITEXACT, COPY, MPEG4, PCM, PICTURE, TONE
from selftest import open_changes

PARTS = {0x1654AE6B: 'Tracks', 0x1941A469: 'Attachments', 0x1043A770: 'Chapters', 0x1254C367: 'Tags'}
CRC, ATOM, START, STRING, ENTRY, FILE = 0xBF, 0xB6, 0x91, 0x85, 0xAE, 0x61A7
SEEK_HEAD, CLUSTER, SEGMENT = b'\x11\x4d\x9b\x74', b'\x1f\x43\xb6\x75', b'\x18\x53\x80\x67'
UNKNOWN = b'\x01' + b'\xff' * 7
KIND = [None, 'master', 'int', 'uint', 'string', 'utf8', 'binary', 'float', 'date']
ANSWER = re.compile(r'^part ([0-9A-F]+) (?:refused (\d+) at (\d+)|absent heads (\d+) rows 0|'
                    r'at (\d+) size (\d+) heads (\d+) rows (\d+)(.*))$')


# ---- The recordings ----

def killed_pipe(out, size, *words):
    """ffmpeg, which writes into a pipe at the pace of the picture, and is killed when so many bytes have come."""
    command = ['ffmpeg', '-hide_banner', '-loglevel', 'error', '-nostdin', '-re', '-stream_loop', '99', *words,
               '-cluster_time_limit', '200', '-flush_packets', '1', '-f', 'matroska', '-']
    recorder = subprocess.Popen(command, stdin=subprocess.DEVNULL, stdout=subprocess.PIPE)
    data = b''
    while len(data) < size:
        more = os.read(recorder.stdout.fileno(), 512)
        if not more:
            sys.exit('live.py: %s: the recorder ended before it was killed' % out)
        data += more
    recorder.send_signal(signal.SIGKILL)
    recorder.wait()
    make.write(out, data)


def header(data, at):
    """Id and size of the header at an address, its length, and whether the size is unknown; None if it is not whole."""
    end, numbers = at, []
    for most in (4, 8):
        width = 9 - data[end].bit_length() if end < len(data) else 9
        if width > most or end + width > len(data):
            return None
        numbers.append(int.from_bytes(data[end:end + width], 'big'))
        end += width
    marker = 1 << 7 * width
    return numbers[0], numbers[1] - marker, end - at, numbers[1] - marker == marker - 1


def behind(source, out):
    """A recording of ffmpeg's as a live recorder would write it: a Void in place of the seek head, Clusters of unknown
    size, and Chapters and Tags behind them."""
    data = make.read(source)
    at = data.index(SEGMENT) + 12
    front, back = data[:at], b''
    while at < len(data):
        number, size, length, _ = header(data, at)
        element = data[at:at + length + size]
        at += length + size
        if number == int.from_bytes(SEEK_HEAD, 'big'):
            front += b'\xec' + bytes([0x40 | len(element) - 3 >> 8, len(element) - 3 & 0xFF]) + bytes(len(element) - 3)
        elif number == int.from_bytes(CLUSTER, 'big'):
            front += CLUSTER + UNKNOWN + element[length:]
        elif PARTS.get(number) in ('Chapters', 'Tags'):
            back += element
        else:
            front += element
    make.write(out, front + back)


def stale(source, out):
    """The same, and the seek entries for Chapters and Tags lead to one another's place, and that for Attachments past
    the end."""
    data = make.read(source)
    places = []
    for number in (0x1043A770, 0x1254C367, 0x1941A469):
        at = data.index(b'\x53\xab\x84' + number.to_bytes(4, 'big')) + 9
        places.append((at + 1, at + 1 + (data[at] & 0x0F)))
    one, other, last = (data[start:end] for start, end in places)
    for (start, end), position in zip(places, (other, one, b'\xff' * len(last))):
        data = data[:start] + position.rjust(end - start, b'\0') + data[end:]
    make.write(out, data)


class Maker:
    def __init__(self, folder, samples):
        self.folder, self.samples, self.names, self.swept = folder, os.path.abspath(samples), [], []

    def add(self, name, swept=False):
        self.names.append(name)
        if swept:
            self.swept.append(name)
        return name

    def by_ffmpeg(self):
        src, about = ('-i', 'source.mkv'), ('-i', 'rich.ffmeta', *COPY, '-map_metadata', '1')
        attach = ('-attach', 'short.txt', '-metadata:s:t:0', 'mimetype=text/plain')
        make.ffmpeg(self.add('ff-live-file.mkv'), *src, *about, '-live', '1')
        make.piped(self.add('ff-live-pipe.mkv'), *src, *about, '-live', '1')
        make.piped(self.add('ff-pipe.mkv'), *src, *COPY)
        make.piped(self.add('ff-pipe-all.mkv'), *src, *about, *attach)
        make.piped(self.add('ff-pipe-clusters.mkv'), *src, *about, *attach, '-cluster_size_limit', '1500')
        make.piped(self.add('ff-live-webm.webm', True), *PICTURE, '-c:v', 'libvpx', '-b:v', '20k', '-live', '1',
                   form='webm')
        for size in (4000, 9000, 15000):
            make.killed(self.add('ff-killed-%d.mkv' % size), size, *src, *about, *attach)
            killed_pipe(self.add('ff-killed-pipe-%d.mkv' % size), size, *src, *about, *attach)
        make.killed(self.add('ff-killed-small.mkv', True), 2500, '-i', 'small.mkv', *about, *attach)
        killed_pipe(self.add('ff-killed-pipe-small.mkv', True), 2500, '-i', 'small.mkv', *about, *attach)
        make.piped('small-pipe.mkv', '-i', 'small.mkv', *about, *attach, '-cluster_size_limit', '600')
        behind('small-pipe.mkv', self.add('hand-behind.mkv', True))
        behind('ff-pipe-clusters.mkv', self.add('hand-behind-long.mkv'))
        stale('small-pipe.mkv', self.add('hand-stale.mkv', True))

    def by_mkvtoolnix(self):
        write = make.write
        write('stages.xml', make.chapters(make.edition(*make.stage_chapters())))
        write('one-tag.xml', make.tags(make.tag(make.simple('RAIL', '5V'))))
        make.ffmpeg('long.mkv', '-f', 'lavfi', '-i', 'testsrc2=s=160x120:r=15:d=4', '-c:v', 'mjpeg', '-q:v', '4',
                    *BITEXACT)
        make.killed_mkvmerge(self.add('mm-killed.mkv'), 20000, '--chapters', 'stages.xml', '--global-tags',
                             'one-tag.xml', '--attach-file', 'short.txt', 'long.mkv')
        write(self.add('mm-killed-small.mkv', True), make.read('mm-killed.mkv')[:3000])
        # What mkvpropedit makes of a live recording: it fills in what it needs, and puts the new part at the end.
        make.copy('ff-live-file.mkv', self.add('mm-edited-live.mkv'))
        make.mkvpropedit('mm-edited-live.mkv', '--chapters', 'stages.xml')

    def by_gstreamer(self):
        if not make.has_gstreamer():
            print('live.py: without GStreamer (gst-launch-1.0 with %s): its recordings are left out' %
                  ', '.join(make.GST_NEEDS))
            return
        make.run(*make.gstreamer(self.add('gst-live.mkv'), 'num-buffers=10', 'matroskamux', 'streamable=true'))
        make.run(*make.gstreamer(self.add('gst-live-tags.mkv', True), 'num-buffers=4', 'taginject',
                                 'tags=artist=Bench,comment=5V', '!', 'matroskamux', 'streamable=true'))
        for name, words in (('gst-live-killed.mkv', ['streamable=true']), ('gst-killed.mkv', [])):
            make.kill_at(self.add(name), 6000, make.gstreamer(name, 'is-live=true', 'matroskamux', *words))
        make.write(self.add('gst-killed-small.mkv', True), make.read('gst-killed.mkv')[:3000])

    def all(self):
        os.chdir(self.folder)
        make.write('short.txt', 'rail 5V\n')
        make.write('rich.ffmeta', make.ff_chapters(['ROM', 'SPL – zweite Stufe', 'ブート', 'Kernel'], 200,
                                                   'title=Boot repair\nBENCH_RAIL=5V'))
        make.ffmpeg('source.mkv', *PICTURE, *TONE, *MPEG4, *PCM, *BITEXACT)
        make.ffmpeg('small.mkv', '-f', 'lavfi', '-i', 'testsrc=s=32x24:r=10:d=1', '-c:v', 'mpeg4', '-b:v', '5k',
                    *BITEXACT)
        self.by_ffmpeg()
        self.by_mkvtoolnix()
        self.by_gstreamer()
        for name in ('streamed.mkv', 'stopped.mkv', 'live.mkv'):
            shutil.copy(os.path.join(self.samples, name), self.add('own-' + name, True))
        return self


# ---- Our answers ----

class Answer:
    """One part, as real/parts tells it."""

    def __init__(self, line):
        match = ANSWER.match(line)
        if not match:
            sys.exit('live.py: no answer: %s' % line[:80])
        number, refused, refused_at, absent, at, size, heads, rows, rest = match.groups()
        self.id = int(number, 16)
        self.refused, self.refused_at = refused and int(refused), refused_at and int(refused_at)
        self.at, self.size, self.count = at and int(at), size and int(size), rows and int(rows)
        self.heads = int(heads or absent or 0)
        self.rows = [[int(row.split()[0], 16), *map(int, row.split()[1:8])] for row in (rest or '').split(' / ')[1:]]

    def state(self):
        return 'refused %d' % self.refused if self.refused else 'found' if self.at else 'absent'


class Judge:
    def __init__(self, parts, viewer):
        self.parts, self.viewer = parts, viewer
        self.counts, self.unexplained, self.change, self.change_open = collections.Counter(), [], None, None
        self.kept, self.known = {}, {}

    def fail(self, name, words):
        self.unexplained.append('%s: %s' % (name, words))

    def call(self, *words):
        """What real/parts says, by lines; it is kept for the selftest."""
        if words not in self.kept:
            done = subprocess.run([*self.parts, *words], stdin=subprocess.DEVNULL, stdout=subprocess.PIPE, check=True)
            self.kept[words] = done.stdout.decode().splitlines()
        return self.kept[words]

    def changed(self, answer):
        return self.change(answer) if self.change else answer

    def changed_open(self, line):
        return Opened(self.change_open(line) if self.change_open else line)

    def told_by_tools(self, name):
        if name not in self.known:
            _, text = tools.call('ffprobe', '-v', 'error', '-show_chapters', '-show_streams', '-of', 'json', name)
            self.known[name] = tools.Info(name), json.loads(text or '{}')
        return self.known[name]

    # ---- A whole file ----

    def due(self, info, label, number, data):
        """What mkvinfo's facts make due: the states that are allowed, and the address of the element or the refusal."""
        if info.segment is None or info.segment.data == 0:
            return {'absent'}, None
        first = next(iter(info.level1(label)), None)
        heads = info.heads()
        if heads and (first is None or heads[0].at < first.at):
            where = [address for entry, address in
                     (pair for head in heads for pair in info.entries(head)) if entry == number]
            if not where:
                return {'absent'}, None
            if where[-1] is None or where[-1] > 2 ** 64 - 1:
                return {'refused 8'}, heads[-1].at
            if where[-1] >= len(data):
                return {'refused 1'}, where[-1]
            there = [e for e in info.level1(label) if e.at == where[-1]]
            return ({'found'}, there[0].at) if there else ({'refused 9'}, where[-1])
        if first is None:
            return {'absent', 'refused 1'}, None
        return ({'found'}, first.at) if first.end() <= len(data) else ({'refused 1'}, None)

    def rows(self, name, answer, part, data):
        """The rows of a found part: mkvinfo's elements below it, which leave out each CRC-32."""
        ours = [(row[0], row[2], row[3], row[4], row[6]) for row in answer.rows if row[0] != CRC]
        theirs = [(e.id(), e.at, e.header(), e.data, e.depth - part.depth - 1) for e in part.below()]
        if ours != theirs:
            self.fail(name, '%s: rows %s, and mkvinfo has %s' % (
                PARTS[answer.id], [r for r in ours if r not in theirs][:2], [r for r in theirs if r not in ours][:2]))
        self.counts['rows'] += len(ours)

    def chapters(self, name, answers, info, probed, data):
        """Starts and names of chapters, and how many tracks and attachments: ffprobe's."""
        found = {a.id: a for a in answers}
        rows = found[0x1043A770].rows
        ours = []
        for i, row in enumerate(rows):
            if row[0] != ATOM:
                continue
            below = rows[i + 1:row[7]]
            start = [r for r in below if r[0] == START and r[1] == i + 1]
            names = [data[r[2] + r[3]:r[2] + r[3] + r[4]].decode() for r in below if r[0] == STRING]
            number = int.from_bytes(data[start[0][2] + start[0][3]:start[0][2] + start[0][3] + start[0][4]], 'big')
            # ffprobe shows the last display's name.
            ours.append((number, names[-1] if names else None))
        theirs = [(round(float(c['start_time']) * 10 ** 9), c.get('tags', {}).get('title'))
                  for c in probed.get('chapters', [])]
        clusters = [e.at for e in info.level1('Cluster')]
        behind_clusters = [e.at for e in info.level1('Chapters') if clusters and e.at > clusters[0]]
        if ours and not theirs and behind_clusters:
            self.counts['finding: ffprobe looks for no chapters behind Clusters'] += 1
        elif ours != theirs:
            self.fail(name, 'chapters %s, and ffprobe has %s' % (ours[:3], theirs[:3]))
        self.counts['chapters'] += len(ours)
        streams = collections.Counter(s.get('codec_type') == 'attachment' for s in probed.get('streams', []))
        for number, child, count in ((0x1654AE6B, ENTRY, streams[False]), (0x1941A469, FILE, streams[True])):
            held = sum(row[0] == child and row[1] == 0 for row in found[number].rows)
            if found[number].state() == 'found' and held != count:
                self.fail(name, '%s holds %d, and ffprobe has %d' % (PARTS[number], held, count))
            self.counts['tracks and files'] += held

    def whole(self, name):
        data = make.read(name)
        info, probed = self.told_by_tools(name)
        answers = [self.changed(Answer(line)) for line in self.call('--live', name)]
        self.counts['parts'] += len(answers)
        for answer in answers:
            label = PARTS[answer.id]
            states, at = self.due(info, label, answer.id, data)
            self.counts[answer.state()] += 1
            if answer.state() not in states:
                self.fail(name, '%s is %s, and by mkvinfo %s' % (label, answer.state(), ' or '.join(sorted(states))))
            elif answer.state() == 'found':
                part = next(e for e in info.level1(label) if e.at == at)
                if (answer.at, answer.size) != (part.at + part.header(), part.data) or answer.count != len(answer.rows):
                    self.fail(name, '%s at %d size %d, and mkvinfo has another place' % (label, answer.at, answer.size))
                self.rows(name, answer, part, data)
            elif answer.refused and at is not None and answer.refused_at != at:
                self.fail(name, '%s is refused at %d, and not at %d' % (label, answer.refused_at, at))
            elif answer.refused == 1 and at is None and not self.is_cut(data, answer.refused_at):
                self.fail(name, '%s is refused 1 at %d, where nothing is cut off' % (label, answer.refused_at))
        # A head that hides a part, or a Segment of size 0, says less than ffprobe does.
        if all(answer.state() == 'found' or 'absent' in self.due(info, PARTS[answer.id], answer.id, data)[0]
               for answer in answers) and info.segment is not None and info.segment.data != 0:
            self.chapters(name, answers, info, probed, data)
        opened = self.opened(name)
        self.whole_open(name, answers, opened, info, data)
        self.viewed(name, answers)

    def opened(self, name):
        return self.changed_open(self.call('--live', '--open', name)[0])

    def whole_open(self, name, answers, opened, info, data):
        """`open`: Info as mkvinfo has it, and the four as their searches; or a refusal of one of these five."""
        states, at = self.due(info, 'Segment information', INFO, data)
        faults = {(a.refused, a.refused_at) for a in answers if a.refused}
        if opened.refused is not None:
            self.counts['open refused'] += 1
            by_info = states == {'refused %d' % opened.refused} and opened.refused_at == at
            if not opened.answer.endswith(' tables 0') or not (by_info or opened.fault() in faults):
                self.fail(name, 'open is refused %d at %d, and no part is' % opened.fault())
            return
        self.counts['open read'] += 1
        found = [e for e in info.level1('Segment information') if e.at == at] if info.segment is not None else []
        place = (found[0].at + found[0].header(), found[0].data) if found else None
        heads = len(info.heads()) if info.segment is not None and info.segment.data != 0 else 0
        if opened.heads != heads:
            self.fail(name, 'open has read %d heads, and mkvinfo has %d' % (opened.heads, heads))
        if not opened.parts['Info'].answer.endswith(' rest 0'):
            self.fail(name, 'open: numbers behind the rows of Info')
        if opened.parts['Info'].place() != place:
            self.fail(name, 'open has Info at %r, and mkvinfo at %r' % (opened.parts['Info'].place(), place))
        if found:
            part = opened.parts['Info']
            ours = [(row.id, row.at, row.header, row.payload, row.depth) for row in part.rows]
            theirs = [(e.id(), e.at, e.header(), e.data, e.depth - found[0].depth - 1) for e in found[0].below()]
            if data[place[0]:place[0] + 2] == b'\xbf\x84':
                theirs.insert(0, (CRC, place[0], 2, 4, 0))
            # None of them holds another, in these recordings.
            if ours != theirs or len(part.rows) != part.told or any(
                    (row.parent, row.after) != (0, k + 1) or tools.KINDS.get(row.id, 'binary') != KIND[row.kind]
                    for k, row in enumerate(part.rows)):
                self.fail(name, 'open has other rows of Info than mkvinfo')
            self.counts['rows'] += len(ours)
        self.beside(name, 'open', answers, opened, True)

    def beside(self, name, what, answers, opened, with_rows):
        """An accepted `open` has the four parts of the searches."""
        for answer in answers:
            part = opened.parts[PARTS[answer.id]]
            place = None if answer.at is None else (answer.at, answer.size)
            rows = [list(row.numbers()) for row in part.rows]
            if answer.refused or part.place() != place or (with_rows and rows != answer.rows) or \
                    part.told != (answer.count or 0):
                self.fail(name, '%s: %s is %s, and its search has another' % (what, PARTS[answer.id], part.place()))
            if not part.answer.endswith(' rest 0'):
                self.fail(name, '%s: numbers behind the rows of %s' % (what, PARTS[answer.id]))

    def is_cut(self, data, at):
        """Whether the header at an address, or what it says that it holds, is not there whole."""
        found = header(data, at) if at <= len(data) else None
        return at <= len(data) and (found is None or at + found[2] + found[1] > len(data))

    # ---- The viewer ----

    def viewed(self, name, answers):
        """The viewer in live mode has the same parts, its status is 1 if one is refused or something is remarked, and
        it says in words what happened to each part that is not found."""
        words = ('viewer', name)
        if words not in self.kept:
            done = subprocess.run([*self.viewer, '--live', '--json', name], stdin=subprocess.DEVNULL,
                                  stdout=subprocess.PIPE, stderr=subprocess.PIPE)
            plain = subprocess.run([*self.viewer, '--live', name], stdin=subprocess.DEVNULL, stdout=subprocess.PIPE,
                                   stderr=subprocess.PIPE)
            self.kept[words] = done.returncode, json.loads(done.stdout), plain.stderr.decode()
        status, told, said = self.kept[words]
        for answer, part in zip(answers, told['parts']):
            refused = answer.refused and 'refused'
            if part['state'] != (refused or answer.state()) or part.get('refused') != answer.refused or \
                    part.get('refused_at') != answer.refused_at or part.get('at') != answer.at:
                self.fail(name, 'the viewer has another %s' % part['name'])
            segment = 'has no segment' in said or 'no Matroska' in said or 'has no bytes' in said
            if answer.state() != 'found' and part['name'] not in said and not segment:
                self.fail(name, 'the viewer does not say what happened to %s' % part['name'])
        if status != (1 if told['remarks'] or any(a.refused for a in answers) else 0):
            self.fail(name, 'the viewer\'s status is %d' % status)
        self.counts['viewed'] += 1

    # ---- Cuts ----

    def cuts(self, name):
        data = make.read(name)
        lines = self.call('--live', '--cuts', name)
        answers = [[Answer(line) for line in lines[i + 1:i + 5]] for i in range(0, len(lines), 6)]
        opens = [self.changed_open(line) for line in lines[5::6]]
        last = {a.id: a for a in answers[-1]}
        info = opens[-1].parts['Info'] if opens[-1].refused is None else None
        segment = data.index(SEGMENT)
        size_of = header(data, segment)
        first = next((at for at in self.children(data, segment + size_of[2])), None)
        by_head = size_of[1] == 0 or (first is not None and first == 'head')
        for length, (four, opened) in enumerate(zip(answers, opens)):
            self.cut_open(name, data[:length], four, opened, info, segment, by_head)
            for answer in four:
                answer = self.changed(answer)
                self.cut(name, data[:length], answer, last[answer.id], segment, by_head)
                self.counts['%s %s' % ('with a head' if by_head else 'without', answer.state())] += 1
        self.counts['cut recordings with a head' if by_head else 'cut recordings'] += 1
        self.counts['cuts'] += len(answers)
        if by_head:
            self.cut_viewed(name, data)

    def children(self, data, at):
        """'head' if a seek head stands in front of all parts, 'part' if a part does."""
        while at < len(data):
            found = header(data, at)
            if found is None or found[3]:
                return
            if found[0] == int.from_bytes(SEEK_HEAD, 'big'):
                yield 'head'
            if found[0] in PARTS:
                yield 'part'
            at += found[2] + found[1]

    def cut(self, name, data, answer, whole, segment, by_head):
        what = '%s, cut at %d: %s is %s' % (name, len(data), PARTS[answer.id], answer.state())
        due = whole.at is not None and whole.at + whole.size <= len(data)
        if answer.at is not None and not (due and (answer.at, answer.size) == (whole.at, whole.size)):
            self.fail(name, what + ', and it is not there whole')
        if by_head:
            if answer.state() not in ('found', 'absent', 'refused 1', 'refused 8', 'refused 9'):
                self.fail(name, what)
            return
        if due and answer.at is None:
            self.fail(name, what + ', though it stands whole before the cut')
        # Without a segment the place is where the next header would begin.
        before = len(data) <= segment and answer.refused_at == segment
        if answer.refused and (answer.refused != 1 or not (before or self.is_cut(data, answer.refused_at))):
            self.fail(name, what + ' at %d' % answer.refused_at)

    def cut_open(self, name, data, four, opened, info, segment, by_head):
        """`open` of a cut: where it is accepted, no search is refused and each has the same part. A refusal is one that
        a search meets too, but of Info, or behind all four. `info` is the whole recording's, if that is accepted."""
        what = '%s, cut at %d: open' % (name, len(data))
        self.counts['open of cuts ' + ('accepted' if opened.refused is None else 'refused %d' % opened.refused)] += 1
        if opened.refused is None:
            self.beside(name, what, four, opened, False)
            place = opened.parts['Info'].place()
            due = info is not None and info.found() and info.at + info.size <= len(data)
            if place is not None and info is not None and not (due and place == info.place()):
                self.fail(name, what + ' has an Info that is not there whole')
            if due and place is None and not by_head:
                self.fail(name, what + ' has no Info, though it stands whole before the cut')
            return
        faults = {(answer.refused, answer.refused_at) for answer in four if answer.refused}
        in_info = info is None or (info.found() and len(data) < info.at + info.size)
        behind = all(answer.at is not None for answer in four)
        if not opened.answer.endswith(' tables 0') or opened.refused not in (1, 8, 9) or \
                not (opened.fault() in faults or in_info or behind):
            self.fail(name, what + ' is refused %d at %d, and no search is' % opened.fault())
        before = len(data) <= segment and opened.refused_at == segment
        if not by_head and (opened.refused != 1 or not (before or self.is_cut(data, opened.refused_at))):
            self.fail(name, what + ' is refused %d at %d, where nothing is cut off' % opened.fault())

    def cut_viewed(self, name, data):
        """Some of the cuts of a recording with a seek head, or a Segment of size 0, as the viewer tells them."""
        for length in range(60, len(data), max(1, len(data) // 40)):
            cut = 'cut-%d-%s' % (length, name)
            if ('viewer', cut) not in self.kept:
                make.write(cut, data[:length])
            answers = [Answer(line) for line in self.call('--live', cut)]
            self.viewed(cut, [self.changed(a) for a in answers])

    def all(self, made):
        for name in made.names:
            self.whole(name)
        for name in made.swept:
            self.cuts(name)
        return self


# ---- The control ----

def changes(answer):
    """What an answer may be changed to."""
    def other(**fields):
        def change(one):
            made = Answer.__new__(Answer)
            made.__dict__.update(one.__dict__)
            made.__dict__.update(fields)
            return made
        return change
    none = dict(at=None, size=None, count=None, rows=[])
    if answer.refused:
        yield other(refused=2)
        yield other(refused=17)
        yield other(refused_at=answer.refused_at + 1)
        yield other(refused=None, refused_at=None)
        return
    yield other(refused=3, refused_at=answer.at or 0, **none)
    if answer.at is None:
        yield other(at=60, size=0, count=0)
        return
    yield other(at=answer.at + 1)
    yield other(size=answer.size + 1)
    yield other(**none)
    if answer.rows:
        for column in (0, 2, 3, 4, 6):
            rows = [list(row) for row in answer.rows]
            rows[-1][column] += 1
            yield other(rows=rows)
        yield other(rows=answer.rows[:-1])


def selftest(judge, made):
    tried = missed = 0

    def noticed(name, check, put, change, of='change'):
        nonlocal tried, missed
        seen = [0]

        def once(answer):
            seen[0] += 1
            return change(answer) if seen[0] == put else answer
        before = len(judge.unexplained)
        setattr(judge, of, once)
        check(name)
        tried += 1
        if len(judge.unexplained) == before:
            missed += 1
            print('live.py: not noticed: %s, answer %d of %s' % (of, put, name))
        del judge.unexplained[before:]
        setattr(judge, of, None)

    for name in made.names:
        for put, line in enumerate(judge.call('--live', name), 1):
            for change in changes(Answer(line)):
                noticed(name, judge.whole, put, change)
        line = judge.call('--live', '--open', name)[0]
        for other in open_changes(line):
            if other != line:
                noticed(name, judge.whole, 1, lambda _, other=other: other, 'change_open')
    for name in made.swept:
        told = judge.call('--live', '--cuts', name)
        lines = [line for line in told if line.startswith('part')]
        for put in range(1, len(lines), max(1, len(lines) // 12)):
            answer = Answer(lines[put - 1])
            for change in list(changes(answer))[:3]:
                if change(answer).state() in ('refused 2', 'refused 3', 'refused 17') or answer.at:
                    noticed(name, judge.cuts, put, change)
        opens = told[5::6]
        for put in range(1, len(opens), max(1, len(opens) // 6)):
            line = opens[put - 1]
            for other in (re.sub(r'^refused \d+', 'refused 2', line), 'refused 3 at 0 tables 0',
                          re.sub(r'at (\d+) size', lambda m: 'at %d size' % (int(m.group(1)) + 1), line, count=1)):
                if other != line:
                    noticed(name, judge.cuts, put, lambda _, other=other: other, 'change_open')
    print('live: %d changed answers tried, %d not noticed' % (tried, missed))
    return missed == 0


def main():
    words = sys.argv[1:]
    control = words[:1] == ['--selftest']
    words = words[1:] if control else words
    if len(words) < 5 or '--' not in words:
        sys.exit('usage: real/live.py [--selftest] FOLDER SAMPLES PARTS.. -- VIEWER..')
    os.makedirs(words[0], exist_ok=True)
    made = Maker(words[0], words[1]).all()
    split = words.index('--')
    judge = Judge(words[2:split], words[split + 1:]).all(made)
    for line in judge.unexplained[:40]:
        print('unexplained: ' + line)
    told = judge.counts

    def states(prefix):
        return ', '.join('%s %d' % (key[len(prefix):], told[key]) for key in sorted(told) if key.startswith(prefix))
    print('compared: %s' % ', '.join('%s %d' % item for item in sorted(told.items())))
    print('live: cut at every byte, without a seek head: %d recordings: %s' %
          (told['cut recordings'], states('without ')))
    print('live: cut at every byte, with a seek head or a Segment of size 0: %d recordings: %s' %
          (told['cut recordings with a head'], states('with a head ')))
    print('live: %d recordings, %d parts, %d rows, %d chapters, %d cuts of %d recordings, %d unexplained' % (
        len(made.names), told['parts'], told['rows'], told['chapters'], told['cuts'], len(made.swept),
        len(judge.unexplained)))
    good = not judge.unexplained
    if control:
        good = selftest(judge, made) and good
    sys.exit(0 if good else 1)


if __name__ == '__main__':
    main()
