# Sees that the comparisons can fail: real/run --selftest. One of our answers is changed, or one fact of the tools, and
# the comparison has to call something unexplained. Answers are changed number by number: an address off by one, a row
# left out, a name moved by a byte; of the viewer each value of its JSON, and lines swapped, set in, or without a mark.
# Texts get a zero byte, or are cut elsewhere than before their first one. Facts are changed so that the condition of a
# finding's reason no longer holds. run() is for compare.py, run_viewer() for stages.py.
import copy
import json
import re

from against import WIDTH
from answers import FIVE, OPENED

RECORDINGS = ['ff-all.mkv', 'mm-all.mkv', 'mm-ordered.mkv', 'mm-attachments.mkv', 'mm-marks.mkv', 'pe-settings.mkv',
              'hand-padded.mkv', 'large-mm.mkv', 'large-ff.mkv', 'mm-info.mkv', 'ff-old.mkv', 'live-dated.mkv',
              'hand-last.mkv', 'hand-replaced.mkv', 'hand-overrun.mkv']


def number_changes(word):
    """A word of an answer, changed in each way that keeps its form."""
    if re.fullmatch(r'\d+\+\d+', word):
        at, length = map(int, word.split('+'))
        changes = ['%d+%d' % (at + 1, length), '%d+%d' % (at, length + 1), 'unset']
        return changes + (['%d+%d' % (at, length - 1)] if length else [])
    if word in ('yes', 'no'):
        return ['no' if word == 'yes' else 'yes']
    if word == 'unset':
        return ['1', 'no']
    if re.fullmatch(r'[0-9A-F]{16}', word):
        return ['%016X' % (int(word, 16) ^ 1 << 44)]
    if re.fullmatch(r'-\d+', word):
        return [str(int(word) + 1), str(int(word) - 1), word[1:]]
    if re.fullmatch(r'\d+', word):
        return [str(int(word) + 1)] + ([str(int(word) - 1)] if word != '0' else [])
    if word in ('iso', 'ietf'):
        return ['ietf' if word == 'iso' else 'iso']
    if word in ('text', 'binary'):
        return ['binary' if word == 'text' else 'text']
    if word in ('header', 'payload'):
        return ['payload' if word == 'header' else 'header']
    if word in ('video', 'audio', 'subtitle'):
        return ['logo', 'none']
    if word == 'none':
        return ['audio']
    return []


def word_changes(answer):
    words = answer.split(' ')
    for i, word in enumerate(words):
        for other in number_changes(word):
            # These words alone are no such answer.
            if words[i - 1:i] == ['language'] and word == 'unset' or words[i - 1:i] == ['value'] and word == 'unset':
                continue
            yield ' '.join(words[:i] + [other] + words[i + 1:])


def part_changes(answer):
    """Changes of a part's answer: its place, its count of heads, where it broke, rows left out, each number of some
    rows."""
    head, *rows = answer.split(' / ')
    yield 'refused 3 at 0 table 0'
    yield 'refused 9 at 0 table 0'
    if answer.startswith('refused'):
        # The listing has its address too.
        yield re.sub(r' at (\d+)', lambda m: ' at %d' % (int(m.group(1)) + 1), answer)
    if not rows:
        yield 'at 100 size 0 heads 1 rows 0 rest 0'
        return
    yield 'absent heads 1 rows 0 rest 0'
    yield re.sub(r'heads (\d+)', lambda m: 'heads %d' % (int(m.group(1)) + 1), head) + ' / ' + ' / '.join(rows)
    for pattern in (r'at (\d+)', r'size (\d+)'):
        changed = re.sub(pattern, lambda m: '%s %d' % (m.group(0).split(' ')[0], int(m.group(1)) + 1), head, count=1)
        yield ' / '.join([changed] + rows)
    for k in sorted({0, 1, len(rows) // 2, len(rows) - 2}):
        if not 0 <= k < len(rows) - 1:
            continue
        fewer = re.sub(r'rows (\d+)', 'rows %d' % (len(rows) - 1), head)
        yield ' / '.join([fewer] + rows[:k] + rows[k + 1:])
        words = rows[k].split(' ')
        for i in range(WIDTH):
            value = '%X' % (int(words[0], 16) ^ 1) if i == 0 else str(int(words[i]) + 1)
            yield ' / '.join([head] + rows[:k] + [' '.join(words[:i] + [value] + words[i + 1:])] + rows[k + 1:])


def open_changes(answer):
    """Changes of what `open` tells: each part's, two parts exchanged, the count of heads, and what a refusal says."""
    if answer.startswith('refused'):
        number, at = re.fullmatch(r'refused (\d+) .*?at (\d+) .*', answer).groups()
        yield answer.replace('refused ' + number, 'refused %d' % (int(number) + 1), 1)
        yield answer.replace(' at ' + at, ' at %d' % (int(at) + 1), 1)
        yield answer.replace(' tables 0', ' tables dirty')
        yield 'heads 0 ' + ' '.join('%s absent rows 0 rest 0' % label.lower() for label in FIVE)
        return
    yield 'refused 3 at 0 tables 0'
    yield re.sub(r'heads (\d+)', lambda m: 'heads %d' % (int(m.group(1)) + 1), answer, count=1)
    told = list(OPENED.fullmatch(answer).groups())

    def with_parts(parts):
        return 'heads %s ' % told[0] + ' '.join('%s %s' % (label.lower(), part) for label, part in zip(FIVE, parts))
    parts = told[1:]
    for k, part in enumerate(parts):
        # Those of a search's answer, which has the count of heads too.
        for change in part_changes(part.replace(' rows ', ' heads 0 rows ', 1)):
            if change.startswith('refused') or ' heads 0 ' not in change:
                continue
            yield with_parts(parts[:k] + [change.replace(' heads 0 ', ' ', 1)] + parts[k + 1:])
        yield with_parts(parts[:k] + [part.replace(' rest 0', ' rest dirty')] + parts[k + 1:])
        if k and part != parts[k - 1]:
            yield with_parts(parts[:k - 1] + [part, parts[k - 1]] + parts[k + 1:])


def info_changes(answer):
    """Changes of Info's record: each word, two of a kind exchanged, and the last bit of the duration."""
    yield from word_changes(answer)
    words = answer.split(' ')
    for one, other in (('muxing', 'writing'), ('title', 'muxing'), ('previous', 'next'), ('uid', 'next')):
        k, n = words.index(one) + 1, words.index(other) + 1
        yield ' '.join(words[n] if i == k else words[k] if i == n else word for i, word in enumerate(words))
    k = words.index('duration') + 1
    if words[k] != 'unset':
        yield ' '.join(words[:k] + ['%016X' % (int(words[k], 16) ^ 1)] + words[k + 1:])


def answer_changes(word, answer):
    if word.startswith('part '):
        return part_changes(answer)
    if word in ('open', 'live open'):
        return open_changes(answer)
    if word in ('open by the C face', 'live open by the C face', 'both modes'):
        return [answer + ' ', answer.replace('0', '1', 1)]
    if word in ('info', 'live info') and not answer.startswith('refused'):
        return info_changes(answer)
    if word == 'listing':
        lines = answer.split('\n')
        return ['\n'.join(lines[:-2] + ['']), answer.replace(' master ', ' binary ', 1), answer.replace('1', '2', 1)]
    if answer.startswith('refused'):
        return ['refused 14 at 0 table 0', answer.replace(' at 0', ' at 1')]
    if word in ('payload', 'label', 'shown'):
        # The last byte left out, one more, and another one; before them a range.
        told = [answer[:-2], answer + '00', answer[:-1] + ('0' if answer[-1] != '0' else '1')]
        front, _, digits = answer.rpartition(' ')
        return told + ([change + ' ' + digits for change in word_changes(front)] if word == 'shown' else [])
    if word == 'whose' and ' rows ' in answer:
        # The table behind is compared as a whole.
        front, _, table = answer.partition(' rows ')
        return [change + ' rows ' + table for change in word_changes(front)] + [answer + ' ']
    if word == 'body' and answer.startswith('float'):
        return [answer[:6] + change for change in number_changes(answer[6:])]
    if word == 'body':
        return [change for change in word_changes(answer) if not change.endswith('unset')]
    return word_changes(answer)


def changed_answers(comparison):
    """Runs the comparison unchanged and gathers the answers by word, with a count for each word; then what to change:
    the first answer, the last, and one in between."""
    seen = {}

    def watch(word, answer):
        seen.setdefault(word, []).append(answer)
        return answer
    comparison.change = watch
    comparison.all()
    for word, answers in seen.items():
        for k in sorted({0, len(answers) // 2, len(answers) - 1}):
            for change in answer_changes(word, answers[k]):
                if change != answers[k]:
                    yield word, k, change


def exchange(word, index, change):
    """Gives the changed answer in place of the index-th one to that word."""
    count = [0]

    def swap(asked, answer):
        if asked != word:
            return answer
        count[0] += 1
        return change if count[0] - 1 == index else answer
    return swap


def entry(info, number, where):
    """Makes mkvinfo's facts tell one more seek entry, in the last head that is reached."""
    head = info.heads()[-1]
    seek = copy.deepcopy(head.children[0])
    for field in seek.children:
        if field.label == 'Seek ID':
            field.value = ' '.join('0x%02x' % byte for byte in number.to_bytes(4, 'big'))
        else:
            field.value = str(where - info.start())
    head.children.append(seek)


def filled(said):
    """The second entry of the seek head leads to Tracks."""
    fields = [e for e in said.info.segment.below() if e.label == 'Seek position']
    fields[1].value = str(said.info.level1('Tracks')[0].at - said.info.start())


def first(info, label):
    return [e for e in info.segment.below() if e.label == label][0]


def fact_changes(tools):
    """Reason, recording, and what to change in the tools' facts so that the reason no longer holds."""
    def drop(label, where):
        def change(said):
            element = first(said.info, where)
            element.children = [e for e in element.children if e.label != label]
        return change

    def child(label, where):
        """One more child of that label in every such element."""
        def change(said):
            for element in [e for e in said.info.segment.below() if e.label == where]:
                element.children.append(tools.Element(element.depth + 1, label, '1', element.at + 1, 2, 0))
                element.children[-1].parent = element
        return change

    def title(said):
        said.probed['chapters'][0]['tags']['title'] += '!'

    def uid(said):
        [c for c in said.probed['chapters'] if c['id'] < 0][0]['id'] -= 1

    def end(said):
        said.probed['chapters'][1]['end'] += 1

    def fewer(said):
        del said.probed['chapters'][-1]

    def more(said):
        said.probed['chapters'].append(said.probed['chapters'][-1])

    def opus(said):
        [s for s in said.probed['streams'] if s['codec_type'] == 'audio'][0]['sample_rate'] = '44100'

    def language(said):
        list(said.chapters.iter('ChapLanguageIETF'))[0].text += 'x'

    def zero(said):
        [e for e in said.tags.iter('String') if e.text and e.text.startswith('00:')][0].text += '0'

    def tail(label):
        """mkvinfo shows the first such text of which it shows less than there is as if it ended a letter later."""
        def change(said):
            one = [e for e in said.info.segment.below() if e.label == label and len(e.value or '') < e.data][0]
            one.value = (one.value or '') + 'x'
        return change

    def nested(said):
        atom = [a for a in said.chapters.iter('ChapterAtom') if a.find('ChapterAtom') is not None][0]
        atom.remove(atom.find('ChapterAtom'))

    def nested_simple(said):
        simple = [a for a in said.tags.iter('Simple') if a.find('Simple') is not None][0]
        simple.remove(simple.find('Simple'))

    def known(said):
        for e in said.info.level1('Cluster'):
            e.size, e.data = 100, 90

    def ending(said):
        said.info.segment.size, said.info.segment.data = 5000, 4988

    def some_bytes(said):
        said.info.segment.size, said.info.segment.data = 17, 5

    def met(said):
        tracks = said.info.level1('Tracks')[0]
        said.info.segment.children.append(copy.deepcopy(tracks))
        said.info.segment.children[-1].label = 'Chapters'

    def position(label, ident):
        return lambda said: entry(said.info, ident, said.info.level1(label)[0].at)

    def inside(said):
        entry(said.info, 0x1254C367, 100)

    def after(said):
        # The seek head comes behind the part.
        said.info.level1('Seek head')[0].at = 10 ** 6

    def small_part(said):
        del first(said.info, 'Edition entry').children[10:]

    def swap_entries(said):
        entry(said.info, 0x1654AE6B, said.info.level1('Tracks')[0].at)

    def outside(said):
        first(said.info, 'Video projection').children[-1].at += 1000

    def track(k, name, value):
        """Another property of the k-th track."""
        def change(said):
            assert said.identified['tracks'][k]['properties'].get(name) != value
            said.identified['tracks'][k]['properties'][name] = value
        return change

    def stream(k, name, value):
        """Another fact of ffprobe's on the k-th track."""
        def change(said):
            about = said.probed['streams'][k]
            for part in (about, about['disposition'], about['tags']):
                if name in part:
                    assert part[name] != value
                    part[name] = value
        return change

    def description(said):
        said.identified['attachments'][0]['description'] = 'x'

    def info(label, value):
        """mkvinfo shows another value of an element of Info."""
        def change(said):
            one = [e for e in said.info.level1('Segment information')[-1].below() if e.label == label][-1]
            assert one.value != value
            one.value = value
        return change

    def moved(label):
        """mkvinfo shows an element of Info, or a part, a byte later."""
        def change(said):
            [e for e in said.info.segment.below() if e.label == label][-1].at += 1
        return change

    def container(name, value):
        """Another fact of mkvmerge's on the whole recording."""
        def change(said):
            assert said.identified['container']['properties'].get(name) != value
            said.identified['container']['properties'][name] = value
        return change

    def probed(name, value):
        """Another fact of ffprobe's on the whole recording."""
        def change(said):
            about = said.probed['format']
            part = about if name in about else about['tags']
            assert part.get(name) != value
            part[name] = value
        return change

    def once_only(label):
        """mkvinfo shows the first of two alone."""
        def change(said):
            said.info.segment.children.remove(said.info.level1(label)[-1])
        return change

    def unnamed(said):
        """The head names nothing."""
        said.info.level1('Seek head')[0].children = []

    def longer(said):
        said.info.segment.size += 40
        said.info.segment.data += 40

    return [
        *[('open: last', 'hand-last.mkv', once_only(label)) for label in ('Tracks', 'Segment information')],
        *[('open: replaced', 'hand-replaced.mkv', change) for change in (
            once_only('Tracks'), once_only('Segment information'), unnamed)],
        ('open: refused', 'hand-overrun.mkv', longer), ('open: refused', 'killed-plain.mkv', ending),
        ('open: refused', 'hand-live.mkv', known), ('open: refused', 'large-over.mkv', small_part),
        ('open: refused', 'hand-stale.mkv', position('Segment information', 0x1549A966)),
        ('open: refused', 'hand-cut-end.mkv', inside), ('hidden', 'pe-no-seek.mkv', position('Segment information',
                                                                                           0x1549A966)),
        ('ffprobe: tag', 'ff-dated.mkv', probed('ENCODER', 'x')),
        ('no duration', 'gst-killed.mkv', container('duration', 1)),
        ('ffprobe: duration', 'live-dated.mkv', container('duration', 1)),
        ('ffprobe: duration', 'live-file.mkv', child('Duration', 'Segment information')),
        ('zero bytes', 'hand-padded.mkv', tail('Title')), ('zero bytes', 'hand-padded.mkv', tail(
            'Multiplexing application')), ('zero bytes', 'hand-padded.mkv', container('writing_application', 'taken')),
        # Facts on Info that agree with ours without a reason.
        *[('a fact of Info', 'mm-info.mkv', info(label, value)) for label, value in (
            ('Duration', '00:00:01.000000001'), ('Timestamp scale', '1000001'), ('Writing application', 'x'),
            ('Multiplexing application', 'x'), ('Segment UID', '0x00'), ('Previous segment UID', '0x00'),
            ('Next segment UID', '0x00'), ('Family UID', '0x00'), ('Segment filename', 'x'),
            ('Chapter translate codec', '2'))],
        *[('a fact of Info', 'mm-info.mkv', moved(label)) for label in (
            'Segment information', 'Duration', 'Timestamp scale', 'Writing application', 'Multiplexing application',
            'Segment UID', 'Previous segment UID', 'Next segment UID', 'Family UID', 'Chapter translate codec')],
        *[('a fact of Info', 'mm-info.mkv', container(name, value)) for name, value in (
            ('duration', 1000000001), ('muxing_application', 'x'), ('writing_application', 'x'), ('title', 'x'),
            ('segment_uid', '00'), ('previous_segment_uid', '00'), ('next_segment_uid', '00'),
            ('date_utc', '2026-11-18T03:09:11Z'))],
        *[('a fact of Info', 'mm-info.mkv', probed(name, value)) for name, value in (
            ('duration', '1.000001'), ('encoder', 'x'), ('title', 'x'),
            ('creation_time', '2026-11-18T03:09:11.000000Z'))],
        *[('a fact of Info', 'mm-info.mkv', drop(label, 'Segment information')) for label in (
            'Family UID', 'Duration', 'Timestamp scale', 'Segment UID')],
        *[('a fact of Info', 'ff-dated.mkv', change) for change in (
            info('Date', '2026-03-09 08:07:07 UTC'), container('date_utc', '2026-03-09T08:07:05Z'),
            probed('creation_time', '2026-03-09T08:07:06.123457Z'), info('Title', 'x'), container('title', 'x'),
            probed('title', 'x'), drop('Date', 'Segment information'), moved('Date'), moved('Title'))],
        *[('a fact of Info', 'ff-old.mkv', change) for change in (
            info('Date', '1999-12-31 23:59:58 UTC'), container('date_utc', '1999-12-31T23:59:58Z'),
            probed('creation_time', '1999-12-31T23:59:58.250000Z'))],
        ('hidden', 'mm-hidden.mkv', position('Chapters', 0x1043A770)), ('hidden', 'mm-hidden.mkv', after),
        ('hidden', 'pe-no-seek.mkv', position('Tags', 0x1254C367)),
        ('written twice', 'mm-twice.mkv', swap_entries), ('unknown size', 'hand-live.mkv', known),
        ('unknown size', 'hand-live-4.mkv', lambda said: (known(said), ending(said))),
        *[('unknown size, short', name, lambda said: (known(said), ending(said)))
          for name in ('hand-live-1.mkv', 'hand-live-false.mkv')],
        ('open end', 'killed-plain.mkv', ending), ('open end', 'killed-plain.mkv', met),
        ('open end', 'hand-cut-no-seek.mkv', ending), ('rows', 'large-over.mkv', small_part),
        ('stale', 'hand-stale.mkv', position('Chapters', 0x1043A770)),
        ('cut off', 'hand-cut-end.mkv', inside), ('default', 'mm-all.mkv', child('Sampling frequency', 'Audio track')),
        ('default', 'mm-all.mkv', child('Channels', 'Audio track')), ('zero bytes', 'ff-all.mkv', zero),
        *[('zero bytes', 'hand-padded.mkv', tail(label)) for label in (
            'Chapter string', 'Chapter language (IETF BCP 47)', 'Name', 'String', 'Target type', 'Codec ID',
            'Codec name', 'File name', 'File description', 'MIME type')],
        ('languages', 'mm-all.mkv', language), ('nested', 'mm-all.mkv', nested),
        ('nested', 'mm-all.mkv', nested_simple), ('description', 'mm-all.mkv', child('File description', 'Attached')),
        ('description', 'mm-all.mkv', description), ('ffprobe: editions', 'mm-all.mkv', fewer),
        ('ffprobe: editions', 'mm-all.mkv', more), ('ffprobe: name', 'mm-all.mkv', title),
        ('ffprobe: end', 'mm-all.mkv', end), ('ffprobe: uid', 'mm-all.mkv', uid),
        ('no size', 'killed-mkvmerge.mkv', some_bytes), ('unfilled', 'gst-killed.mkv', filled),
        ('ffprobe: opus', 'webm-vp9.webm', opus), ('plain master', 'mm-picture.mkv', outside),
        ('a row of ours', 'mm-all.mkv', drop('Chapter UID', 'Chapter atom')),
        *[('default', 'mm-all.mkv', child(label, 'Track')) for label in ('"Enabled" flag', '"Forced display" flag')],
        *[('default', 'mm-plain.mkv', child(label, 'Video track')) for label in ('Display width', 'Display height')],
        *[('default', 'pe-settings.mkv', change) for change in (
            child('"Default track" flag', 'Track'), child('Language', 'Track'), track(0, 'language', 'ger'),
            track(2, 'enabled_track', False), track(2, 'forced_track', True), track(1, 'default_track', False),
            stream(0, 'language', 'ger'), stream(1, 'default', 0), stream(0, 'forced', 1))],
        *[('marks', 'mm-marks.mkv', change) for change in (
            track(1, 'flag_commentary', False), track(0, 'flag_commentary', True), track(0, 'flag_original', None),
            drop('"Text descriptions" flag', 'Track'))],
        ('languages', 'mm-all.mkv', track(1, 'language_ietf', 'fr')), ('empty name', 'pe-settings.mkv',
                                                                      track(1, 'track_name', 'x')),
        # Facts on a track that agree with ours without a reason.
        *[('a fact of a track', 'pe-settings.mkv', change) for change in (
            track(0, 'number', 2), track(0, 'uid', 2), track(0, 'track_name', 'x'), track(0, 'codec_name', 'x'),
            track(0, 'codec_id', 'x'), track(0, 'codec_private_data', '00'), track(0, 'codec_private_length', 0),
            track(0, 'default_duration', 1), track(0, 'pixel_dimensions', '64x47'), track(0, 'stereo_mode', 12),
            track(0, 'display_dimensions', '80x61'), track(2, 'language', 'ger'), track(1, 'language_ietf', 'fr'),
            stream(0, 'title', 'x'), stream(1, 'title', 'x'), stream(0, 'stereo_mode', 'block_rl'),
            stream(0, 'width', 63), stream(2, 'language', 'ger'), drop('Interlaced', 'Video track'),
            drop('Codec name', 'Track'), drop('"Lacing" flag', 'Track'), drop('Default duration', 'Track'))],
    ]


# Bytes of texts in hand-padded.mkv that are others: the first zero byte is not there, or comes too early.
ZEROS = [(text, k, byte) for text in (b'ROM\0\0', b'SPL\0ot', b'RAIL\0', b'5 V\0', b'SEASON\0', b'Camera\0',
                                      b'board.txt\0', b'console\0', b'text/plain\0', b'V_MPEG4/ISO/SP\0', b'fr\0CA')
         for k, byte in ((text.index(b'\0'), ord('x')), (text.index(b'\0') - 1, 0), (0, 0))]


def with_byte(one, at, byte):
    """A comparison of which the recording has another byte."""
    one.bytes = one.bytes[:at] + bytes([byte]) + one.bytes[at + 1:]
    return one


def is_made(folder, name):
    """Those of GStreamer may not be there."""
    with open(folder + '/list', encoding='utf-8') as file:
        return not name.startswith('gst-') or any(line.startswith(name + '\t') for line in file)


def once(call):
    """The same call, run once for the same words."""
    known = {}

    def kept(*words):
        if words not in known:
            known[words] = call(*words)
        return known[words]
    return kept


def run(folder, asker, run_rows, run_parts, Comparison, tools):
    asker.keep = True
    run_rows, run_parts = once(run_rows), once(run_parts)
    missed = tried = 0

    def fresh(name, said):
        return Comparison(name, folder, asker, run_rows, run_parts, said)

    for name in RECORDINGS:
        said = fresh(name, None).tools
        count = 0
        plain = fresh(name, said)
        if plain.all().wrong:
            print('selftest: %s is not explained as it is' % name)
            return 1
        for word, index, change in list(changed_answers(fresh(name, said))):
            one = fresh(name, said)
            one.change = exchange(word, index, change)
            count += 1
            try:
                noticed = bool(one.all().wrong)
            except (ValueError, IndexError, KeyError, TypeError, AttributeError):
                # An answer that makes no sense stops the comparison, which is noticed too.
                noticed = True
            if not noticed:
                missed += 1
                print('selftest: %s: not noticed: answer %d to %s as %s' % (name, index, word, change[:100]))
        print('%s: %d changed answers' % (name, count), flush=True)
        tried += count
    facts = 0
    for reason, name, change in fact_changes(tools):
        if not is_made(folder, name):
            continue
        said = fresh(name, None).tools
        plain = fresh(name, said).all()
        if plain.wrong or (not reason.startswith('a ') and reason not in {r for r, _ in plain.findings}):
            print('selftest: %s has no finding %s as it is' % (name, reason))
            missed += 1
            continue
        said = copy.deepcopy(said)
        change(said)
        facts += 1
        if not fresh(name, said).all().wrong:
            missed += 1
            print('selftest: %s: not noticed: a changed fact of %s' % (name, reason))
    # A checksum that is wrong, in the bytes that the comparison has; and another zero byte or none in a text.
    broken = fresh('ff-all.mkv', None)
    at = broken.bytes.find(b'\xbf\x84', broken.bytes.find(b'\x16\x54\xae\x6b', 300))
    facts += 1
    if not with_byte(broken, at + 2, broken.bytes[at + 2] ^ 1).all().wrong:
        missed += 1
        print('selftest: not noticed: a wrong checksum')
    said = fresh('hand-padded.mkv', None).tools
    for text, k, byte in ZEROS:
        one = fresh('hand-padded.mkv', said)
        facts += 1
        if not with_byte(one, one.bytes.index(text) + k, byte).all().wrong:
            missed += 1
            print('selftest: not noticed: byte %d of %r is %d' % (k, text, byte))
    # The last byte of the date and of the duration: one nanosecond, and the last bit of the float.
    for name, ident in (('ff-dated.mkv', b'\x44\x61\x88'), ('ff-old.mkv', b'\x44\x61\x88'),
                        ('ff-dated.mkv', b'\x44\x89\x88'), ('mm-info.mkv', b'\x44\x89\x84')):
        one = fresh(name, None)
        at = one.bytes.index(ident) + 2 + (ident[2] & 0x7F)
        facts += 1
        if not with_byte(one, at, one.bytes[at] ^ 1).all().wrong:
            missed += 1
            print('selftest: not noticed: the last byte of %s in %s' % (ident[:2].hex(), name))
    print('selftest: %d changed answers and %d changed facts, %d not noticed' % (tried, facts, missed))
    return 1 if missed else 0


# ---- The viewer ----

# Recordings of which every answer of the viewer is changed: with everything, and the odd ones.
VIEWED = ['mm-shown.mkv', 'pe-targets.mkv', 'ff-all.mkv', 'mm-picture.mkv', 'mm-no-seek.mkv', 'pe-hidden.mkv',
          'mm-hidden.mkv', 'hand-stale.mkv', 'hand-cut-end.mkv', 'hand-live.mkv', 'hand-twice.mkv', 'hand-padded.mkv',
          'killed-mkvmerge.mkv', 'killed-plain.mkv']


def value_changes(value):
    """A value of the JSON, changed once; of a list one left out, and the first two swapped."""
    if value is None:
        return [7]
    if isinstance(value, bool):
        return [not value]
    if isinstance(value, int):
        return [value + 1, None]
    if isinstance(value, str):
        # A text that begins or ends a letter too late or too early, or has a zero byte.
        return sorted({value + 'x', value + '\0', value[1:], value[:-1]} - {value})
    if isinstance(value, list):
        return ([value[:-1]] if value else []) + ([value[1::-1] + value[2:]] if len(value) > 1 else [])
    # An object that is not there.
    return [None]


def json_changes(value, where=''):
    """The same JSON with one thing changed, for each thing in it, and where that is."""
    yield from ((where, change) for change in value_changes(value))
    inner = value.items() if isinstance(value, dict) else enumerate(value) if isinstance(value, list) else []
    for key, member in inner:
        for place, change in json_changes(member, '%s/%s' % (where, key)):
            other = copy.copy(value)
            other[key] = change
            yield place, other
    if isinstance(value, dict):
        yield where, {**value, 'more': None}


def text_changes(value, data, where=''):
    """The same JSON with one text that has zero bytes in the recording cut elsewhere, for each such text: not at all,
    at its end alone, behind the first zero byte, and before the last; or with the zero bytes alone left out."""
    if isinstance(value, dict) and isinstance(value.get('value'), str):
        payload = data[value['at']:value['at'] + value['length']]
        first = payload.find(b'\0')
        others = [payload, payload.rstrip(b'\0'), payload[:first + 1], payload[:payload.rfind(b'\0')],
                  payload.replace(b'\0', b'')] if first >= 0 else []
        for text in sorted({other.decode('utf-8') for other in others} - {value['value']}):
            yield where, {**value, 'value': text}
    inner = value.items() if isinstance(value, dict) else enumerate(value) if isinstance(value, list) else []
    for key, member in inner:
        for place, change in text_changes(member, data, '%s/%s' % (where, key)):
            other = copy.copy(value)
            other[key] = change
            yield place, other


def line_changes(text):
    """Lines swapped, left out, told twice, set in by two spaces more or less, without a mark, with another number, or
    with a zero byte at the end of a text. A number in the name of an element is left alone: the tools have other
    names."""
    lines = text.split('\n')
    for k, line in enumerate(lines[:-1]):
        others = [[], [line, line], ['  ' + line]] + ([[line[2:]]] if line.startswith('  ') else [])
        others += [[line.replace(mark, '', 1)] for mark in (' hidden', ' disabled', ' default', ': the entry is stale')
                   if mark in line]
        others += [[line + mark] for mark in (' hidden', ' disabled', '\\x00', '\0')]
        others += [[line[:m.start()] + '\\x00' + line[m.start():]] for m in re.finditer('"', line)]
        others += [[line[:m.start()] + str(int(m.group()) + 1) + line[m.end():]]
                   for m in re.finditer(r'(?<![A-Za-z0-9-])\d+', line)]
        others += [[line.replace(old, new, 1)] for old, new in
                   (('header id', 'payload id'), ('payload id', 'header id'), ('stands', 'stands: the entry is stale'))
                   if old in line]
        for other in others:
            yield '\n'.join(lines[:k] + other + lines[k + 1:])
        if k + 2 < len(lines) and line != lines[k + 1]:
            yield '\n'.join(lines[:k] + [lines[k + 1], line] + lines[k + 2:])


def error_changes(text):
    """Standard error: a line left out, one more, and each number changed."""
    lines = text.split('\n')
    yield text + 'stages: one more\n'
    for k, line in enumerate(lines[:-1]):
        yield '\n'.join(lines[:k] + lines[k + 1:])
        for m in re.finditer(r'\d+', line):
            yield '\n'.join(lines[:k] + [line[:m.start()] + str(int(m.group()) + 1) + line[m.end():]] + lines[k + 1:])


def viewer_changes(words, answer, data):
    """What is changed, in words, and the changed answer: status, standard output and standard error. `data` is the
    recording."""
    status, out, err = answer
    yield 'status', (1 - status, out, err)
    yield from (('standard error as ' + change, (status, out, change)) for change in error_changes(err))
    if words == ('--json',):
        yield 'cut short', (status, out[:-3], err)
        yield 'a key twice', (status, out.replace('"level": 0', '"level": 0, "level": 0', 1)
                              if '"level": 0' in out else out.replace('{', '{"length": 0, ', 1), err)
        told = json.loads(out)
        for place, change in (*json_changes(told), *text_changes(told, data)):
            yield place, (status, json.dumps(change), err)
    else:
        yield from (('as ' + change, (status, change, err)) for change in line_changes(out))


def nth(root, name, k=0):
    return list(root.iter(name))[k]


def viewer_facts(tools):
    """Reason or fact, recording, and what to change in the tools' facts so that the comparison has to notice it."""
    def chapter(name, text, k=0):
        return lambda said: setattr(nth(said.chapters, name, k), 'text', text)

    def tag(name, text, k=0):
        return lambda said: setattr(nth(said.tags, name, k), 'text', text)

    def shown(label, field, value, k=0):
        """Another fact of mkvinfo's k-th element of that label, not counting those of Segment itself."""
        return lambda said: setattr([e for e in said.info.segment.below() if e.label == label][k], field, value)

    def lift(name):
        """The first nested one stands in its parent's parent."""
        def change(said):
            root = said.chapters if name == 'ChapterAtom' else said.tags
            for upper in root.iter():
                for lower in upper.findall(name):
                    if lower.find(name) is not None:
                        upper.append(lower.find(name))
                        lower.remove(lower.find(name))
                        return
        return change

    def fewer(kind, name):
        """One of that name less; the first of those in it."""
        def change(said):
            root = getattr(said, kind)
            above = [e for e in root.iter() if e.find(name) is not None][0]
            above.remove(above.find(name))
        return change

    def track(name, value):
        return lambda said: said.identified['tracks'][0]['properties'].update({name: value})

    def file(name, value):
        return lambda said: said.identified['attachments'][-1].update({name: value})

    def uid(said):
        said.identified['attachments'][-1]['properties']['uid'] += 1

    def data(said):
        said.attached[0] += b'x'

    def position(label, ident):
        return lambda said: entry(said.info, ident, said.info.level1(label)[0].at)

    def drop_head(said):
        said.info.segment.children = [e for e in said.info.segment.children if e.label != 'Seek head']

    def known(said):
        for e in said.info.level1('Cluster'):
            e.size, e.data = 100, 90

    def size(data):
        return lambda said: vars(said.info.segment).update(size=data + 12, data=data)

    def small_part(said):
        del first(said.info, 'Edition entry').children[9:]

    def same_twice(said):
        # The other Tracks stands where the shown one is, so that nothing differs.
        one, two = said.info.level1('Tracks')
        one.at, one.size, one.data = two.at, two.size, two.data

    out = [('a name', 'mm-shown.mkv', chapter('ChapterString', 'x')),
           ('a nested name', 'mm-shown.mkv', chapter('ChapterString', 'x', 1)),
           *[('a name before zero bytes', 'hand-padded.mkv', chapter('ChapterString', text, k)) for k, text in
             ((0, 'ROM\0'), (0, 'RO'), (2, 'SPLot 2023.10'), (4, 'gone'), (5, 'a name'), (6, 'the first'),
              (8, 'll but the first letter'))],
           *[('a text before zero bytes', 'hand-padded.mkv', tag(name, text)) for name, text in
             (('Name', 'RAIL_'), ('String', '5 V at J4'), ('TargetType', 'SEASONS'), ('TagLanguageIETF', 'es-MX'))],
           *[('a text before zero bytes', 'hand-padded.mkv', track(name, text)) for name, text in
             (('track_name', 'Camera over'), ('codec_id', 'V_MPEG4/ISO/SP\0'))],
           *[('a text before zero bytes', 'hand-padded.mkv', file(name, text)) for name, text in
             (('file_name', 'nameless.txt'), ('content_type', 'text/x-log'), ('description', 'soon'))],
           ('a start', 'mm-shown.mkv', chapter('ChapterTimeStart', '00:00:00.600000001')),
           ('an end', 'mm-shown.mkv', chapter('ChapterTimeEnd', '00:00:00.900000001')),
           ('a uid', 'mm-shown.mkv', chapter('ChapterUID', '1')),
           ('an edition\'s uid', 'mm-shown.mkv', chapter('EditionUID', '1')),
           ('hidden', 'mm-shown.mkv', chapter('ChapterFlagHidden', '0')),
           ('enabled', 'mm-shown.mkv', chapter('ChapterFlagEnabled', '1')),
           ('a language', 'mm-shown.mkv', chapter('ChapLanguageIETF', 'fr')),
           ('nesting', 'mm-shown.mkv', lift('ChapterAtom')), ('nesting', 'pe-targets.mkv', lift('Simple'))]
    out += [('one less', 'mm-shown.mkv', fewer('chapters', name)) for name in
            ('EditionEntry', 'ChapterAtom', 'ChapterDisplay', 'ChapterString', 'ChapterTimeStart')]
    out += [('one less', 'pe-targets.mkv', fewer('tags', name)) for name in
            ('Tag', 'Targets', 'Simple', 'Name', 'String', 'Binary', 'TargetType', 'TargetTypeValue', 'ChapterUID')]
    out += [('a tag', 'pe-targets.mkv', tag(name, text)) for name, text in
            (('TrackUID', '72'), ('EditionUID', '1'), ('ChapterUID', '1'), ('AttachmentUID', '1'),
             ('TargetTypeValue', '40'), ('TargetType', 'x'), ('Name', 'x'), ('String', 'x'), ('Binary', '00fe'))]
    out += [('mkvinfo', 'pe-targets.mkv', shown(label, 'at', 7)) for label in
            ('Chapters', 'Edition entry', 'Chapter atom', 'Chapter display', 'Chapter string', 'Chapter time start',
             'Chapter UID', 'Chapter language (IETF BCP 47)', 'Tags', 'Tag', 'Targets', 'Simple', 'String', 'Binary',
             'Target type', 'Track', 'Track UID', 'Track number', 'Codec ID', 'Attached', 'File name', 'File data',
             'MIME type', 'File UID', 'Edition UID', 'Edition flag default', 'Seek head', 'Seek entry')]
    out += [('mkvinfo', 'pe-targets.mkv', shown(label, 'value', value)) for label, value in
            (('Chapter time start', '00:00:07.000000000'), ('Chapter UID', '7'), ('Track UID', '7'), ('File UID', '7'),
             ('Track number', '7'), ('Track type', 'audio'), ('Target type value', '7'), ('Seek position', '7'),
             ('Chapter flag hidden', '0'), ('Edition flag default', '0'), ('Edition UID', '7'))]
    out += [('mkvinfo', 'pe-targets.mkv', shown('Seek ID', 'value', '0x12 0x34 0x56 0x78'))]
    out += [('a track', 'pe-targets.mkv', track(name, value)) for name, value in
            (('number', 7), ('uid', 7), ('track_name', 'x'), ('codec_id', 'x'), ('language', 'x'),
             ('language_ietf', 'x'))]
    out += [('an attachment', 'pe-targets.mkv', file(name, value)) for name, value in
            (('file_name', 'x'), ('content_type', 'x'), ('description', 'x'))]
    out += [('an attachment', 'pe-targets.mkv', uid), ('an attachment', 'pe-targets.mkv', data),
            ('hidden', 'mm-hidden.mkv', position('Chapters', 0x1043A770)), ('hidden', 'mm-hidden.mkv', drop_head),
            ('stale', 'hand-stale.mkv', position('Chapters', 0x1043A770)),
            ('cut off', 'hand-cut-end.mkv', lambda said: entry(said.info, 0x1254C367, 100)),
            ('cut off', 'hand-cut-end.mkv', size(1000)), ('open end', 'killed-plain.mkv', size(1000)),
            ('unknown size', 'hand-live.mkv', known), ('no size', 'killed-mkvmerge.mkv', size(5)),
            ('written twice', 'hand-twice.mkv', same_twice),
            ('rows', 'large-over.mkv', small_part),
            ('unfilled', 'gst-killed.mkv', filled),
            ('a text before zero bytes', 'ff-all.mkv', lambda said: setattr([
                e for e in said.tags.iter('String') if (e.text or '').startswith('00:')][0], 'text', '00:00')),
            ('languages', 'mm-shown.mkv', chapter('ChapLanguageIETF', 'fr', -1)),
            ('description', 'mm-shown.mkv', file('description', 'x')),
            ('default', 'pe-settings.mkv', track('language', 'ger')),
            ('empty name', 'pe-settings.mkv', lambda said: said.identified['tracks'][1]['properties'].update(
                track_name='x'))]
    return out


def run_viewer(folder, view, Viewed, tools):
    view = once(view)
    told, missed, tried, facts = {}, 0, 0, 0

    def fresh(name, said=None):
        if name not in told:
            told[name] = Viewed(name, folder, view).tools
        return Viewed(name, folder, view, said or told[name])

    def noticed(one):
        try:
            return bool(one.all().wrong)
        except (ValueError, IndexError, KeyError, TypeError, AttributeError):
            # An answer that makes no sense stops the comparison, which is noticed too.
            return True

    for name in VIEWED:
        seen = {}
        plain = fresh(name)
        plain.change = lambda words, answer: seen.setdefault(words, answer)
        if plain.all().wrong:
            print('selftest: %s is not explained as it is' % name)
            return 1
        count = 0
        for words, answer in seen.items():
            for what, change in viewer_changes(words, answer, plain.bytes):
                one = fresh(name)
                one.change = lambda asked, said: change if asked == words else said
                count += 1
                if not noticed(one):
                    missed += 1
                    print('selftest: %s: not noticed: %s %s' % (name, ' '.join(words) or 'plain', what[:400]))
        print('%s: %d changed answers of the viewer' % (name, count), flush=True)
        tried += count
    for reason, name, change in viewer_facts(tools):
        if not is_made(folder, name):
            continue
        plain = fresh(name).all()
        if plain.wrong:
            print('selftest: %s is not explained as it is' % name)
            missed += 1
            continue
        said = copy.deepcopy(told[name])
        change(said)
        facts += 1
        if not noticed(fresh(name, said)):
            missed += 1
            print('selftest: %s: not noticed: a changed fact on %s' % (name, reason))
    for text, k, byte in ZEROS:
        one = fresh('hand-padded.mkv')
        facts += 1
        if not noticed(with_byte(one, one.bytes.index(text) + k, byte)):
            missed += 1
            print('selftest: not noticed: byte %d of %r is %d' % (k, text, byte))
    print('selftest: %d changed answers of the viewer and %d changed facts, %d not noticed' % (tried, facts, missed))
    return 1 if missed else 0
