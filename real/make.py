#!/usr/bin/env python3
# Makes the real recordings: real/make.py FOLDER. Every recording is written by ffmpeg, mkvmerge or mkvpropedit, and
# where gst-launch-1.0 is on the machine some by GStreamer; those whose name begins with 'hand-' are such recordings of
# which a few bytes were changed here, and say so. The theme is the product's: boot stages as chapters, bench settings
# as tags, the serial console as an attachment and as subtitles. FOLDER/list has one line for each recording: its name,
# a tab, and what it shows.
import os
import resource
import shutil
import subprocess
import sys
import time
from xml.sax.saxutils import escape

STAGES = ['ROM', 'SPL', 'U-Boot', 'Kernel', 'init', 'Login']
MILLION = 1000000


def run(*words):
    done = subprocess.run(words, stdin=subprocess.DEVNULL, stdout=subprocess.PIPE, stderr=subprocess.STDOUT)
    # mkvtoolnix ends with 1 for a warning.
    if done.returncode != 0 and not (done.returncode == 1 and words[0].startswith('mkv')):
        sys.exit('make.py: status %d of: %s\n%s' %
                 (done.returncode, ' '.join(words), done.stdout.decode('utf-8', 'replace')))


def write(name, text):
    with open(name, 'wb') as file:
        file.write(text if isinstance(text, bytes) else text.encode('utf-8'))
    return name


def read(name):
    with open(name, 'rb') as file:
        return file.read()


def ffmpeg(out, *words, form='matroska'):
    run('ffmpeg', '-hide_banner', '-loglevel', 'error', '-nostdin', '-y', *words, '-f', form, out)


def piped(out, *words, form='matroska'):
    """The same through a pipe, so that the muxer can't go back to fill in sizes."""
    command = ['ffmpeg', '-hide_banner', '-loglevel', 'error', '-nostdin', *words, '-f', form, '-']
    done = subprocess.run(command, stdin=subprocess.DEVNULL, stdout=subprocess.PIPE, stderr=subprocess.PIPE)
    if done.returncode != 0:
        sys.exit('make.py: %s: %s' % (out, done.stderr.decode('utf-8', 'replace')))
    write(out, done.stdout)


def kill_at(out, size, command):
    """Runs a recorder that writes at the pace of the picture, and kills it when the file has so many bytes."""
    if os.path.exists(out):
        os.remove(out)
    recorder = subprocess.Popen(command, stdin=subprocess.DEVNULL)
    while recorder.poll() is None and not (os.path.exists(out) and os.path.getsize(out) >= size):
        time.sleep(0.02)
    if recorder.poll() is not None:
        sys.exit('make.py: %s: the recorder ended before it was killed' % out)
    recorder.kill()
    recorder.wait()


def killed(out, size, *words):
    kill_at(out, size, ['ffmpeg', '-hide_banner', '-loglevel', 'error', '-nostdin', '-y', '-re', '-stream_loop', '99',
                        *words, '-cluster_time_limit', '200', '-flush_packets', '1', '-f', 'matroska', out])


def mkvmerge(out, *words):
    run('mkvmerge', '-q', '--deterministic', out, '-o', out, *words)


def killed_mkvmerge(out, size, *words):
    """mkvmerge, killed by the system when the file has so many bytes. It writes a mebibyte at a time, and faster than
    one can look; a limit on the size of its files ends it by a signal in the middle of the first one."""
    done = subprocess.run(['mkvmerge', '-q', '--deterministic', out, '-o', out, *words], stdin=subprocess.DEVNULL,
                          stdout=subprocess.DEVNULL,
                          preexec_fn=lambda: resource.setrlimit(resource.RLIMIT_FSIZE, (size, size)))
    if done.returncode >= 0 or os.path.getsize(out) != size:
        sys.exit('make.py: %s: mkvmerge was not killed at %d bytes' % (out, size))


GST_NEEDS = ('videotestsrc', 'jpegenc', 'taginject', 'matroskamux')


def has_gstreamer():
    return all(map(shutil.which, ('gst-launch-1.0', 'gst-inspect-1.0'))) and all(
        subprocess.run(['gst-inspect-1.0', '--exists', name]).returncode == 0 for name in GST_NEEDS)


def gstreamer(out, source, *words):
    """The words of a pipeline from a small picture into the file."""
    return ['gst-launch-1.0', '-q', 'videotestsrc', source, '!', 'video/x-raw,width=64,height=48,framerate=10/1', '!',
            'jpegenc', 'quality=20', '!', *words, '!', 'filesink', 'buffer-mode=unbuffered', 'location=' + out]


def mkvpropedit(file, *words):
    run('mkvpropedit', '-q', file, *words)


def copy(source, out):
    write(out, read(source))


def void(size):
    """A Void of so many bytes, header and all; its size has two bytes."""
    return b'\xec' + (0x4000 + size - 3).to_bytes(2, 'big') + bytes(size - 3)


# ---- What goes into recordings ----

def console(lines):
    """A serial console's log of so many lines."""
    text = ['U-Boot SPL 2024.01 (bench 7)', 'Trying to boot from MMC1', 'DRAM: 512 MiB', 'Starting kernel ...']
    while len(text) < lines:
        text.append('[%12.6f] bench: line %d of the console, rail 5V ok' % (len(text) * 0.0137, len(text)))
    return '\r\n'.join(text[:lines]) + '\r\n'


def srt(count=4):
    blocks = []
    for i in range(count):
        blocks.append('%d\n00:00:00,%03d --> 00:00:00,%03d\n%s> %s\n' %
                      (i + 1, i * 200, i * 200 + 150, STAGES[i % 6], console(4).split('\r\n')[i % 4]))
    return '\n'.join(blocks)


def ff_chapters(stages, step, extra=''):
    """A metadata file of ffmpeg's, with a chapter for each stage; times in milliseconds."""
    lines = [';FFMETADATA1', extra] if extra else [';FFMETADATA1']
    for i, stage in enumerate(stages):
        lines += ['[CHAPTER]', 'TIMEBASE=1/1000', 'START=%d' % (i * step), 'END=%d' % ((i + 1) * step),
                  'title=' + stage]
    return '\n'.join(lines) + '\n'


def when(nanoseconds):
    seconds, rest = divmod(nanoseconds, 1000 * MILLION)
    return '%02d:%02d:%02d.%09d' % (seconds // 3600, seconds // 60 % 60, seconds % 60, rest)


def field(name, value, attributes=''):
    return '' if value is None else '<%s%s>%s</%s>' % (name, attributes, value, name)


def display(string, iso=(), ietf=(), country=None):
    out = field('ChapterString', escape(string))
    for language in iso:
        out += field('ChapterLanguage', language)
    for language in ietf:
        out += field('ChapLanguageIETF', language)
    return '<ChapterDisplay>%s</ChapterDisplay>' % (out + field('ChapterCountry', country))


def atom(start, *inner, uid=None, end=None, hidden=None, enabled=None, segment=None, edition=None):
    out = field('ChapterUID', uid) + field('ChapterTimeStart', when(start))
    out += field('ChapterTimeEnd', None if end is None else when(end))
    out += field('ChapterFlagHidden', hidden) + field('ChapterFlagEnabled', enabled)
    out += field('ChapterSegmentUID', segment, ' format="hex"') + field('ChapterSegmentEditionUID', edition)
    return '<ChapterAtom>%s</ChapterAtom>' % (out + ''.join(inner))


def edition(*inner, uid=None, default=None, hidden=None, ordered=None):
    out = field('EditionFlagDefault', default) + field('EditionFlagHidden', hidden)
    out += field('EditionFlagOrdered', ordered) + field('EditionUID', uid)
    return '<EditionEntry>%s</EditionEntry>' % (out + ''.join(inner))


def chapters(*editions):
    return '<?xml version="1.0"?>\n<Chapters>%s</Chapters>\n' % ''.join(editions)


def simple(name, text=None, binary=None, *inner, language=None, ietf=None, default=None):
    out = field('Name', escape(name)) + field('String', None if text is None else escape(text))
    out += field('Binary', binary, ' format="hex"') + field('TagLanguage', language)
    out += field('TagLanguageIETF', ietf) + field('DefaultLanguage', default)
    return '<Simple>%s</Simple>' % (out + ''.join(inner))


def tag(*inner, value=None, kind=None, uids=None):
    out = field('TargetTypeValue', value) + field('TargetType', kind)
    for name, uid in uids or []:
        out += field(name, uid)
    return '<Tag><Targets>%s</Targets>%s</Tag>' % (out, ''.join(inner))


def tags(*inner):
    return '<?xml version="1.0"?>\n<Tags>%s</Tags>\n' % ''.join(inner)


def stage_chapters(step=150 * MILLION, **words):
    return [atom(i * step, display(stage, ['eng']), uid=100 + i, **words) for i, stage in enumerate(STAGES)]


def rich_chapters():
    """Two editions, nested atoms, hidden and disabled ones, displays in several languages."""
    step = 150 * MILLION
    first = [
        atom(0, display('ROM', ['eng'], ['en']), display('ROM-Lader', ['ger'], ['de']), uid=11, end=step - 1),
        atom(step, display('SPL', ['eng']), display('プログラム', ['jpn'], ['ja-JP'], 'jp'),
             atom(step, display('DRAM training', ['eng']), uid=121, end=step + 40 * MILLION),
             atom(step + 50 * MILLION, display('Boot device', ['eng']),
                  atom(step + 60 * MILLION, display('eMMC', ['und']), uid=1221), uid=122),
             uid=12, hidden=0, enabled=1),
        atom(2 * step, display('U-Boot', ['eng', 'ger'], ['en-GB', 'de-AT']), uid=13, end=3 * step, enabled=0),
        atom(3 * step, display('Kernel'), uid=14, hidden=1),
        atom(4 * step, uid=15),
        atom(5 * step + 123456789, display('Login: ok & <ready> ❤', ['fre'], ['fr-CA']), uid=18446744073709551615),
    ]
    second = [atom(0, display('Fault', ['eng']), uid=21, end=450 * MILLION),
              atom(450 * MILLION, display('Repair', ['eng']), uid=22)]
    return chapters(edition(*first, uid=901, default=1, hidden=0, ordered=0),
                    edition(*second, uid=902, default=0, hidden=1))


def shown_chapters():
    """What a viewer has to put in order: stages out of time order, an atom's own atoms before its names, names with
    signs of their own, hidden and disabled stages, one without a name, and times of hours, not whole milliseconds."""
    hour = 3600 * 1000 * MILLION
    first = [
        atom(600 * MILLION, display('Kernel', ['eng'], ['en']), uid=61, end=900 * MILLION),
        atom(0, atom(300 * MILLION, atom(310 * MILLION, uid=6221), display('DRAM', ['eng']), uid=622),
             atom(50 * MILLION, display('Mask ROM', ['eng']), uid=621, hidden=1),
             display('ROM', ['eng'], ['en']), display('ROM-Lader', ['ger'], ['de']), display('ブートロム', ['jpn']),
             uid=62),
        atom(300 * MILLION, display('SPL', ['eng']), uid=63, hidden=1, enabled=0),
        atom(300 * MILLION, uid=64),
        atom(299999999, display('a "quoted" \\ name,\ta tab and \x85', ['eng']), display('', ['ger']), uid=65,
             enabled=0),
    ]
    second = [atom(27 * hour + 59999999999, display('the day after', ['eng']), uid=66),
              atom(hour + 62003 * MILLION + 999999, display('an hour', ['eng']), uid=67, end=2 * hour),
              atom(0, display('power', ['eng']), uid=68)]
    return chapters(edition(*first, uid=960, default=1), edition(*second, uid=961, hidden=1))


def segment_info():
    """What mkvmerge takes for Info: uids, names of files, families, and a translation of chapters."""
    def uid(name, digits):
        return field(name, digits, ' format="hex"')
    out = uid('SegmentUID', '00112233445566778899aabbccddeeff') + field('SegmentFilename', 'board-7.mkv')
    out += uid('PreviousSegmentUID', '0f1e2d3c4b5a69788796a5b4c3d2e1f0')
    out += field('PreviousSegmentFilename', 'board-6.mkv') + field('NextSegmentFilename', 'Brett-8 ü.mkv')
    out += uid('NextSegmentUID', 'ffeeddccbbaa99887766554433221100')
    out += ''.join(uid('SegmentFamily', digit * 32) for digit in '1af')
    out += field('ChapterTranslate', field('ChapterTranslateEditionUID', 901) + field('ChapterTranslateCodec', 1) +
                 uid('ChapterTranslateID', '0102'))
    return '<?xml version="1.0"?>\n<Info>%s</Info>\n' % out


def target_tags():
    """Tags for a uid of each kind that the recording has, for one that it has not, and simple tags in simple tags."""
    def about(what):
        return simple(what, 'set', None, simple('BY', 'bench 7', None, simple('AT', '09:30')), simple('NOTE', 'ü "x"'))
    return tags(tag(about('TRACK'), uids=[('TrackUID', 71)]), tag(about('EDITION'), uids=[('EditionUID', 960)]),
                tag(about('CHAPTER'), value=30, uids=[('ChapterUID', 62), ('ChapterUID', 621), ('ChapterUID', 64)]),
                tag(about('ATTACHMENT'), uids=[('AttachmentUID', 31)]), tag(about('NOBODY'), uids=[('TrackUID', 99)]),
                tag(simple('EMPTY', ''), simple('BYTES', None, '00 ff'), value=70, kind='COLLECTION'))


def long_chapters():
    """Stages with names that shorter ones are written over; one has an empty first name, and one is left as it is."""
    step = 100 * MILLION
    return chapters(edition(
        atom(0, display('Boot loader in the mask ROM', ['eng']), uid=81),
        atom(step, atom(step, display('probe of all drivers', ['eng']), uid=821), display('U-Boot 2023.10', ['eng']),
             display('le noyau et le reste', ['fre'], ['fr-CA']), display('gone in Portuguese', ['por'], ['pt-BR']),
             uid=82),
        atom(2 * step, display('a name to be taken away', ['eng']), uid=83),
        atom(3 * step, display('the first of two names', ['eng'], ['en-GB']), display('Anmeldung bereit', ['ger']),
             uid=84),
        atom(4 * step, display('all but the first letter', ['eng']), uid=85),
        atom(5 * step, display('', ['eng']), display('Shell', ['ger']), uid=86),
        atom(6 * step, display('Login', ['eng']), uid=87), uid=980))


def long_tags():
    """Settings with texts that shorter ones are written over, for what has names of that kind."""
    return tags(tag(simple('RAIL_MEASURED', '4.9 V at J4', None, ietf='es-MX'), simple('TAKEN_AWAY', 'with its value'),
                    simple('BYTES', None, '41 00 42 00'), value=70, kind='COLLECTION',
                    uids=[('ChapterUID', 81), ('ChapterUID', 83), ('ChapterUID', 84)]),
                tag(simple('BENCH', '7'), kind='EPISODE', uids=[
                    ('TrackUID', 71), ('TrackUID', 72), ('AttachmentUID', 31), ('AttachmentUID', 32)]))


def rich_tags():
    return tags(
        tag(simple('TITLE', 'Boot repair, lesson 7'), simple('BENCH', '7', None, language='eng', default=1),
            simple('RAIL', '5V', None, simple('TOLERANCE', '±5 %'), simple('SUPPLY', 'PSU-A', None,
                   simple('SERIAL', '000417')), language='ger', ietf='de', default=0),
            simple('DUMP', None, '00 01 02 fe ff 41 00'), value=50, kind='EPISODE'),
        tag(simple('BOARD', 'rev C; ümläut 基板'), simple('EMPTY', ''), value=30, kind='CHAPTER',
            uids=[('ChapterUID', 11), ('ChapterUID', 12), ('EditionUID', 901)]),
        tag(simple('LOG', 'line one\nline two\n'), uids=[('AttachmentUID', 31), ('AttachmentUID', 32)]),
        tag(simple('BAUD', '115200', None, ietf='zh-Hans-CN')))


BITEXACT = ('-flags', '+bitexact', '-fflags', '+bitexact')
PICTURE = ('-f', 'lavfi', '-i', 'testsrc=s=64x48:r=10:d=1')
TONE = ('-f', 'lavfi', '-i', 'sine=440:d=1:r=8000')
MPEG4 = ('-c:v', 'mpeg4', '-b:v', '20k')
PCM = ('-c:a', 'pcm_s16le')
VORBIS = ('-c:a', 'libvorbis', '-b:a', '16k')
OPUS = ('-c:a', 'libopus', '-b:a', '8k')
COPY = ('-map', '0', '-c', 'copy')


class Maker:
    def __init__(self, folder):
        self.folder = folder
        self.listed = []

    def add(self, name, what):
        self.listed.append('%s\t%s\n' % (name, what))
        return name

    def inputs(self):
        write('console.txt', console(40))
        write('console-long.txt', console(2500))
        write('short.txt', 'rail 5V\n')
        write('leitung-übersicht 配線.txt', 'Pin 1: VCC\nPin 2: GND\n')
        write('dump.bin', bytes(range(256)) * 4)
        write('console.srt', srt())
        write('stages.ffmeta', ff_chapters(STAGES, 150))
        about = 'title=Boot repair\\; lesson 7\nartist=Bench ü\nBENCH_RAIL=5V\ncomment=two\\\nlines'
        write('rich.ffmeta', ff_chapters(['ROM', 'SPL – zweite Stufe', 'ブート', 'Kernel'], 200, about))
        write('stages.xml', chapters(edition(*stage_chapters())))
        write('one.xml', chapters(edition(atom(0, display('ROM', ['eng']), uid=5), uid=6)))
        write('long.xml', chapters(edition(*[atom(i * 10 * MILLION, display('Step %d of the boot' % i, ['eng']),
                                                  uid=1000 + i) for i in range(60)])))
        process = field('ChapterProcessCodecID', 1) + field('ChapterProcessPrivate', '0102', ' format="hex"')
        process += field('ChapterProcessCommand', field('ChapterProcessTime', 1) +
                         field('ChapterProcessData', 'aabbcc', ' format="hex"'))
        extras = field('ChapterStringUID', 'rom-stage') + field('ChapterPhysicalEquiv', 10)
        extras += field('ChapterTrack', field('ChapterTrackNumber', 1) + field('ChapterTrackNumber', 2))
        write('extras.xml', chapters(edition(atom(0, extras, display('ROM'), field('ChapterProcess', process), uid=51),
                                             uid=905)))
        write('rich.xml', rich_chapters())
        write('ordered.xml', chapters(
            edition(*[atom(t * MILLION, display(n, ['eng']), uid=u, end=e * MILLION)
                      for t, e, n, u in [(500, 900, 'Kernel first', 41), (0, 400, 'ROM again', 42)]],
                    atom(0, display('Elsewhere', ['eng']), uid=43, end=200 * MILLION,
                         segment='0123456789abcdef0123456789abcdef', edition=77),
                    uid=903, default=1, ordered=1),
            edition(*stage_chapters(), uid=904)))
        write('simple.txt', ''.join('CHAPTER%02d=00:00:00.%03d\nCHAPTER%02dNAME=%s\n' % (i + 1, i * 150, i + 1, s)
                                    for i, s in enumerate(STAGES)))
        write('segment.xml', segment_info())
        write('shown.xml', shown_chapters())
        write('target-tags.xml', target_tags())
        write('nameless.ffmeta', ff_chapters(['ROM', '', 'SPL'], 200).replace('title=\n', '') +
              '[CHAPTER]\nTIMEBASE=1/1000\nSTART=100\nEND=150\ntitle=early\n')
        write('rich-tags.xml', rich_tags())
        write('long-names.xml', long_chapters())
        write('long-texts.xml', long_tags())
        write('one-tag.xml', tags(tag(simple('RAIL', '5V'))))
        write('many-tags.xml', tags(*[tag(*[simple('SETTING_%d_%d' % (i, j), 'value %d' % (i * j)) for j in range(6)],
                                          value=10 * (i % 7 + 1)) for i in range(40)]))
        write('kinds-tags.xml', tags(*[tag(simple('LEVEL', str(v)), value=v, kind=k) for v, k in
                                       [(70, 'COLLECTION'), (60, 'SEASON'), (50, 'EPISODE'), (40, 'PART'),
                                        (30, 'CHAPTER'), (20, 'SCENE'), (10, 'SHOT')]]))
        # Sources that others are copied from, without metadata of their own.
        ffmpeg('source.mkv', *PICTURE, *TONE, *MPEG4, *PCM, *BITEXACT)
        ffmpeg('source2.mkv', *PICTURE, *TONE, '-f', 'lavfi', '-i', 'sine=880:d=1:r=16000', '-i', 'console.srt',
               '-map', '0', '-map', '1', '-map', '2', '-map', '3', *MPEG4, '-c:a:0', 'pcm_s16le', '-c:a:1', 'flac',
               '-ac:a:1', '2', '-c:s', 'srt', *BITEXACT)

    def by_ffmpeg(self):
        add, src = self.add, ('-i', 'source.mkv')
        ffmpeg(add('ff-plain.mkv', 'ffmpeg as it comes: CRC-32 in every part'), *PICTURE, *TONE, *MPEG4, *VORBIS)
        ffmpeg(add('ff-no-crc.mkv', 'without CRC-32'), *src, *COPY, '-write_crc32', '0')
        ffmpeg(add('ff-chapters.mkv', 'six chapters from a metadata file'), *src, '-i', 'stages.ffmeta', *COPY,
               '-map_metadata', '1', '-map_chapters', '1')
        ffmpeg(add('ff-nameless.mkv', 'a chapter without a name, and one out of time order'), *src, '-i',
               'nameless.ffmeta', *COPY, '-map_metadata', '1', '-map_chapters', '1')
        ffmpeg(add('ff-tags.mkv', 'tags of the file, of tracks and of chapters; texts of many languages'),
               *src, '-i', 'rich.ffmeta', *COPY, '-map_metadata', '1', '-metadata:s:v', 'title=Board camera',
               '-metadata:s:v', 'LENS=4 mm', '-metadata:s:a', 'language=ger', '-metadata:s:a', 'NOTE-eng=mono',
               '-metadata:c:0', 'NOTE=mask ROM')
        ffmpeg(add('ff-attach.mkv', 'two attachments'), *src, *COPY, '-attach', 'console.txt',
               '-metadata:s:t:0', 'mimetype=text/plain', '-metadata:s:t:0', 'title=serial console', '-attach',
               'leitung-übersicht 配線.txt', '-metadata:s:t:1', 'mimetype=text/plain; charset=utf-8',
               '-metadata:s:t:1', 'filename=Übersicht.txt')
        ffmpeg(add('ff-all.mkv', 'chapters, tags, an attachment, two tones and subtitles'), '-i', 'source2.mkv', '-i',
               'rich.ffmeta', *COPY, '-map_metadata', '1', '-metadata:s:a:0', 'language=eng', '-metadata:s:a:1',
               'language=jpn', '-attach', 'console.txt', '-metadata:s:t:0', 'mimetype=text/plain')
        ffmpeg(add('ff-reserve.mkv', 'room reserved for the cues'), *src, *COPY, '-reserve_index_space', '600')
        ffmpeg(add('ff-cues-front.mkv', 'cues moved to the front'), *src, '-i', 'stages.ffmeta', *COPY,
               '-map_metadata', '1', '-cues_to_front', '1')
        ffmpeg(add('ff-clusters.mkv', 'many clusters'), *src, '-i', 'stages.ffmeta', *COPY, '-map_metadata', '1',
               '-cluster_time_limit', '100')
        ffmpeg(add('ff-x264-aac.mkv', 'H.264 and AAC'), *PICTURE, *TONE, '-c:v', 'libx264', '-preset', 'ultrafast',
               '-crf', '40', '-pix_fmt', 'yuv420p', '-c:a', 'aac', '-b:a', '16k', '-threads', '1')
        ffmpeg(add('ff-ffv1-flac.mkv', 'FFV1 and FLAC of 48 kHz'), '-f', 'lavfi', '-i', 'testsrc=s=32x24:r=5:d=1', '-f',
               'lavfi', '-i', 'sine=440:d=0.2:r=48000', '-c:v', 'ffv1', '-c:a', 'flac', '-sample_fmt', 's16')
        ffmpeg(add('ff-marks.mkv', 'marks of tracks: default, forced, for the hearing impaired, comment and more'),
               '-i', 'source2.mkv', *COPY, '-disposition:v', 'default+original', '-disposition:a:0',
               'default+visual_impaired+descriptions', '-disposition:a:1', 'comment+dub', '-disposition:s:0',
               'forced+hearing_impaired')
        ffmpeg(add('ff-colour.mkv', 'colour, stereo and aspect settings'), *PICTURE, *MPEG4, '-color_primaries',
               'bt709', '-color_trc', 'bt709', '-colorspace', 'bt709', '-color_range', 'tv', '-aspect', '16:9',
               '-metadata:s:v', 'stereo_mode=left_right')
        ffmpeg(add('ff-audio.mka', 'sound alone, six channels'), '-f', 'lavfi', '-i',
               'sine=440:d=0.3:r=48000,aformat=channel_layouts=5.1', '-c:a', 'ac3')
        ffmpeg(add('ff-console.mks', 'the console alone, as subtitles'), '-i', 'console.srt', '-c:s', 'srt')
        ffmpeg(add('ff-dated.mkv', 'Info with a title and a date of microseconds'), *src, '-i', 'stages.ffmeta', *COPY,
               '-map_metadata', '1', '-metadata', 'title=Boot repair – 基板 7', '-metadata',
               'creation_time=2026-03-09T08:07:06.123456Z')
        ffmpeg(add('ff-old.mkv', 'a date before 2001, not of whole seconds'), *src, *COPY, '-metadata',
               'creation_time=1999-12-31T23:59:58.250001Z')
        # Live ones.
        piped(add('live-dated.mkv', 'live, with a title and a date; no duration'), *src, '-i', 'stages.ffmeta', *COPY,
              '-map_metadata', '1', '-metadata', 'title=Live at bench 7', '-metadata',
              'creation_time=2026-03-09T08:07:06.5Z', '-live', '1')
        ffmpeg(add('live-file.mkv', 'live into a file: the segment has an unknown size'), *src, '-i', 'stages.ffmeta',
               *COPY, '-map_metadata', '1', '-live', '1')
        piped(add('live-pipe.mkv', 'through a pipe: an unknown size, and nothing filled in'), *src, *COPY)
        piped(add('live-pipe-all.mkv', 'the same with chapters, tags, an attachment and subtitles'), '-i',
              'source2.mkv', '-i', 'rich.ffmeta', *COPY, '-map_metadata', '1', '-attach', 'console.txt',
              '-metadata:s:t:0', 'mimetype=text/plain')
        piped(add('live-webm.webm', 'live WebM through a pipe'), *PICTURE, '-c:v', 'libvpx', '-b:v', '20k', '-live',
              '1', form='webm')
        killed(add('killed-all.mkv', 'the recorder was killed: no seek head was written'), 12000, '-i', 'source2.mkv',
               '-i', 'rich.ffmeta', *COPY, '-map_metadata', '1', '-map_chapters', '1', '-attach', 'console.txt',
               '-metadata:s:t:0', 'mimetype=text/plain')
        killed(add('killed-plain.mkv', 'the same without chapters and attachments'), 8000, *src, *COPY)
        # WebM.
        ffmpeg(add('webm-vp8.webm', 'WebM: VP8 and Vorbis'), *PICTURE, *TONE, '-c:v', 'libvpx', '-b:v', '20k', *VORBIS,
               form='webm')
        ffmpeg(add('webm-vp9.webm', 'WebM: VP9 and Opus, with chapters and tags'), *PICTURE, *TONE, '-i', 'rich.ffmeta',
               '-map', '0', '-map', '1', '-map_metadata', '2', '-map_chapters', '2', '-c:v', 'libvpx-vp9', '-b:v',
               '20k', '-cpu-used', '8', '-deadline', 'realtime', *OPUS, form='webm')
        ffmpeg(add('webm-dash.webm', 'WebM for DASH'), *PICTURE, '-c:v', 'libvpx', '-b:v', '20k', '-dash', '1',
               form='webm')
        ffmpeg(add('webm-alpha.webm', 'WebM with alpha'), '-f', 'lavfi', '-i',
               'testsrc=s=32x24:r=5:d=1,format=yuva420p', '-c:v', 'libvpx', '-auto-alt-ref', '0', '-b:v', '20k',
               form='webm')
        ffmpeg(add('webm-vtt.webm', 'WebM with console lines as WebVTT'), *PICTURE, '-i', 'console.srt', '-c:v',
               'libvpx', '-b:v', '20k', '-c:s', 'webvtt', form='webm')

    def by_mkvmerge(self):
        add = self.add
        mkvmerge(add('mm-plain.mkv', 'mkvmerge as it comes'), 'source.mkv')
        mkvmerge(add('mm-chapters.mkv', 'two editions, nested atoms, displays of many languages'), '--chapters',
                 'rich.xml', 'source.mkv')
        mkvmerge(add('mm-shown.mkv', 'two editions, atoms out of time order, an atom\'s own atoms before its names'),
                 '--chapters', 'shown.xml', '--attach-file', 'short.txt', 'source.mkv')
        mkvmerge(add('mm-ordered.mkv', 'an ordered edition that borrows from another segment'), '--chapters',
                 'ordered.xml', 'source.mkv')
        mkvmerge(add('mm-simple-chapters.mkv', 'chapters from the plain text form'), '--chapter-language', 'de',
                 '--chapters', 'simple.txt', 'source.mkv')
        mkvmerge(add('mm-chapter-extras.mkv', 'a chapter with a text uid, tracks and a process'), '--chapters',
                 'extras.xml', 'source.mkv')
        mkvmerge(add('mm-generated.mkv', 'chapters made by mkvmerge every 200 ms'), '--generate-chapters',
                 'interval:200ms', 'source.mkv')
        mkvmerge(add('mm-tags.mkv', 'tags: nested, binary, of each kind of uid'), '--global-tags', 'rich-tags.xml',
                 'source.mkv')
        mkvmerge(add('mm-tag-levels.mkv', 'tags of every target level, and of a track'), '--global-tags',
                 'kinds-tags.xml', '--tags', '0:one-tag.xml', 'source.mkv')
        mkvmerge(add('mm-attachments.mkv', 'four attachments: a text, bytes, a name in UTF-8, one with a description'),
                 '--attachment-description', 'serial console', '--attachment-mime-type', 'text/plain', '--attach-file',
                 'console.txt', '--attachment-mime-type', 'application/octet-stream', '--attach-file', 'dump.bin',
                 '--attach-file', 'leitung-übersicht 配線.txt', '--attachment-name', 'rail.cfg',
                 '--attachment-description', 'Spannung – 電圧', '--attach-file', 'short.txt', 'source.mkv')
        mkvmerge(add('mm-all.mkv', 'everything at once'), '--chapters', 'rich.xml', '--global-tags', 'rich-tags.xml',
                 '--attach-file', 'console.txt', '--language', '1:de', '--track-name', '0:Board camera', '--language',
                 '2:ja', '--default-track-flag', '2:no', '--title', 'Boot repair, lesson 7', 'source2.mkv')
        mkvmerge(add('mm-no-seek.mkv', 'no seek head at all'), '--engage', 'no_meta_seek', '--chapters', 'rich.xml',
                 '--global-tags', 'rich-tags.xml', '--attach-file', 'console.txt', 'source.mkv')
        mkvmerge(add('mm-hidden.mkv', 'a seek head that does not name Chapters'), '--engage',
                 'no_chapters_in_meta_seek', '--chapters', 'stages.xml', '--global-tags', 'one-tag.xml', 'source.mkv')
        mkvmerge(add('mm-cluster-seek.mkv', 'seek entries for clusters in a second head'), '--clusters-in-meta-seek',
                 '--cluster-length', '100ms', '--chapters', 'stages.xml', 'source.mkv')
        mkvmerge(add('mm-twice.mkv', 'Tracks written twice'), '--engage', 'write_headers_twice', '--chapters',
                 'stages.xml', 'source.mkv')
        mkvmerge(add('mm-space.mkv', 'room left behind Chapters'), '--engage', 'space_after_chapters', '--chapters',
                 'stages.xml', 'source.mkv')
        mkvmerge(add('mm-no-cues.mkv', 'no cues, no statistics'), '--no-cues', '--disable-track-statistics-tags',
                 '--chapters', 'stages.xml', 'source.mkv')
        mkvmerge(add('mm-bare.mkv', 'no tags, no statistics, no languages of the newer form'),
                 '--disable-track-statistics-tags', '--disable-language-ietf', '--no-date', '--chapters', 'rich.xml',
                 'source.mkv')
        mkvmerge(add('mm-packed.mkv', 'tracks packed, blocks laced'), '--compression', '0:mpeg4_p2', '--compression',
                 '1:zlib', '--engage', 'lacing_ebml', 'source.mkv')
        mkvmerge(add('mm-picture.mkv', 'projection, mastering, cropping, stereo and colour settings'),
                 '--projection-type', '0:1', '--projection-pose-yaw', '0:12.5', '--projection-pose-pitch', '0:-3',
                 '--projection-pose-roll', '0:1', '--max-luminance', '0:600.5', '--min-luminance', '0:0.01',
                 '--chromaticity-coordinates', '0:0.7,0.3,0.2,0.8,0.1,0.05', '--white-colour-coordinates',
                 '0:0.31,0.33', '--max-content-light', '0:400', '--cropping', '0:1,2,3,4', '--stereo-mode', '0:1',
                 '--aspect-ratio', '0:16/9', '--field-order', '0:1', 'source.mkv')
        ffmpeg('glimpse.mkv', *PICTURE, *MPEG4, *BITEXACT, '-t', '0.3')
        mkvmerge(add('mm-stereo.mkv', 'fifteen pictures, one of each stereo mode; mkvmerge does not write mode 0'),
                 *[word for mode in range(15) for word in ('--stereo-mode', '0:%d' % mode, '--track-name',
                                                           '0:mode %d' % mode, 'glimpse.mkv')])
        mkvmerge(add('mm-marks.mkv', 'marks of tracks'), '--hearing-impaired-flag', '1:yes', '--visual-impaired-flag',
                 '1:yes', '--text-descriptions-flag', '0:yes', '--original-flag', '0:yes', '--commentary-flag', '1:yes',
                 '--forced-display-flag', '1:yes', '--track-enabled-flag', '1:no', 'source.mkv')
        mkvmerge(add('mm-webm.webm', 'WebM by mkvmerge'), '--webm', '--chapters', 'one.xml', '--global-tags',
                 'one-tag.xml', 'webm-vp8.webm')
        mkvmerge(add('mm-info.mkv', 'Info with all uids, names of files, three families and a translation of chapters'),
                 '--segmentinfo', 'segment.xml', '--chapters', 'rich.xml', 'source.mkv')
        # mkvmerge writes the date of today, but not where it is told to write the same file each time.
        run('mkvmerge', '-q', '-o', add('mm-dated.mkv', 'dated today, linked, with a title and a scale of 100,000 ns'),
            '--title', 'Boot repair 基板', '--timestamp-scale', '100000', '--segment-uid',
            '0123456789abcdef0123456789abcdef', '--link-to-previous', '00000000000000000000000000000001',
            '--link-to-next', 'fedcba9876543210fedcba9876543210', 'source.mkv')
        mkvmerge(add('mm-scale-sound.mkv', 'the scale of one sample of sound: 124,999 ns'), '--timestamp-scale', '-1',
                 'source.mkv')
        mkvmerge(add('mm-scale-slow.mkv', 'a scale of 10 ms'), '--timestamp-scale', '10000000', '--title', '',
                 'source.mkv')
        mkvmerge('split.mkv', '--split', 'parts:00:00:00.000-00:00:00.500,00:00:00.500-00:00:00.900', '--link',
                 '--chapters', 'stages.xml', '--attach-file-once', 'short.txt', 'mm-cut-source.mkv')
        for i in (1, 2):
            os.rename('split-%03d.mkv' % i, add('mm-split-%d.mkv' % i, 'part %d of a recording cut in two' % i))
        mkvmerge(add('mm-joined.mkv', 'the two parts joined, chapters of both'), 'mm-split-1.mkv', '+mm-split-2.mkv')

    def edited(self):
        add = self.add

        def edit(source, name, what, *steps):
            copy(source, add(name, what))
            for step in steps:
                mkvpropedit(name, *step)

        attach = ('--attachment-name', 'console.txt', '--attachment-mime-type', 'text/plain',
                  '--attachment-description', 'added later', '--add-attachment', 'console.txt')
        edit('ff-plain.mkv', 'pe-chapters.mkv', 'Chapters added to a recording of ffmpeg', ['--chapters', 'rich.xml'])
        edit('ff-no-crc.mkv', 'pe-tags.mkv', 'Tags replaced', ['--tags', 'global:rich-tags.xml'])
        edit('ff-plain.mkv', 'pe-attach.mkv', 'an attachment added', attach)
        edit('mm-plain.mkv', 'pe-all.mkv', 'chapters, tags and an attachment added one after another',
             ['--chapters', 'rich.xml'], ['--tags', 'global:rich-tags.xml'], attach)
        edit('mm-all.mkv', 'pe-shrunk.mkv', 'parts replaced by shorter ones: Voids in between',
             ['--chapters', 'one.xml'], ['--tags', 'all:one-tag.xml'], ['--replace-attachment', '1:short.txt'])
        edit('mm-all.mkv', 'pe-grown.mkv', 'parts replaced by longer ones, which move to the end',
             ['--chapters', 'long.xml'], ['--tags', 'all:many-tags.xml'], attach)
        edit('mm-all.mkv', 'pe-removed.mkv', 'chapters, tags and the attachment removed', ['--chapters', ''],
             ['--tags', 'all:'], ['--delete-attachment', '1'])
        name = 'a very long name for the camera over the bench, so that the track has no room where it was. '
        edit('ff-plain.mkv', 'pe-tracks.mkv', 'Tracks grown, and moved to the end', ['--edit', 'track:v1', '--set',
             'name=' + name * 3, '--edit', 'info', '--set', 'title=' + name * 2])
        edit('ff-all.mkv', 'pe-settings.mkv', 'names of tracks and codecs, other flags and settings, no language',
             ['--edit', 'track:1', '--set', 'name=Kamera über der Bank 配線', '--set', 'codec-name=MPEG-4, as filmed',
              '--set', 'interlaced=1', '--set', 'stereo-mode=13', '--set', 'display-width=80', '--set',
              'display-height=60', '--set', 'flag-enabled=0', '--delete', 'language', '--delete', 'language-ietf'],
             ['--edit', 'track:2', '--set', 'name=', '--set', 'flag-forced=1', '--set', 'default-duration=128000000',
              '--set', 'language-ietf=de-AT', '--delete', 'flag-default'])
        edit('ff-all.mkv', 'pe-info.mkv', 'Info edited: a date before 2001, other programs, linked, names of files',
             ['--edit', 'info', '--set', 'date=2000-02-29T12:00:01Z', '--set', 'title=Kurzschluß', '--set',
              'muxing-application=bench 7', '--set', 'writing-application=', '--set', 'segment-filename=7.mkv', '--set',
              'prev-filename=6.mkv', '--set', 'next-filename=8.mkv', '--set',
              'prev-uid=0f1e2d3c4b5a69788796a5b4c3d2e1f0', '--set', 'next-uid=0f1e2d3c4b5a69788796a5b4c3d2e1f1'])
        edit('mm-all.mkv', 'pe-no-info.mkv', 'title and uid removed, and the date is the first moment of 2001',
             ['--edit', 'info', '--delete', 'title', '--delete', 'segment-uid', '--set', 'date=2001-01-01T00:00:00Z'])
        edit('mm-no-seek.mkv', 'pe-no-seek.mkv', 'edited though there was no seek head', ['--chapters', 'long.xml'])
        edit('mm-hidden.mkv', 'pe-hidden.mkv', 'chapters edited that no seek head named', ['--chapters', 'rich.xml'])
        edit('mm-cluster-seek.mkv', 'pe-cluster-seek.mkv', 'edited, with a second head', ['--chapters', 'long.xml'],
             ['--tags', 'global:many-tags.xml'], attach)
        edit('live-file.mkv', 'pe-live.mkv', 'a live recording edited', ['--chapters', 'rich.xml'], attach)
        edit('webm-dash.webm', 'pe-webm.webm', 'WebM edited', ['--tags', 'global:one-tag.xml'])
        edit('ff-all.mkv', 'pe-often.mkv', 'edited twelve times over', *[step for i in range(3) for step in
             (['--chapters', ['one.xml', 'long.xml', 'rich.xml'][i]], ['--tags', 'global:' + ['many-tags.xml',
              'one-tag.xml', 'rich-tags.xml'][i]], attach, ['--edit', 'info', '--set', 'title=' + name[:30 * i + 5]])])
        edit('mm-shown.mkv', 'pe-targets.mkv', 'tags for a track, an edition, chapters and an attachment; simple tags '
             'nested', ['--edit', 'track:1', '--set', 'track-uid=71', '--set', 'name=Board camera'],
             ['--attachment-uid', '31', *attach], ['--tags', 'all:target-tags.xml'])
        edit('ff-plain.mkv', 'pe-statistics.mkv', 'statistics added as tags', ['--add-track-statistics-tags'])

    def by_hand(self):
        """Recordings of the tools with a few bytes changed, as other programs or a power failure leave them."""
        add = self.add
        for source, name in (('ff-all.mkv', 'hand-cut.mkv'), ('live-pipe-all.mkv', 'hand-cut-live.mkv'),
                             ('pe-grown.mkv', 'hand-cut-end.mkv'), ('mm-no-seek.mkv', 'hand-cut-no-seek.mkv')):
            whole = read(source)
            write(add(name, source + ' cut short, as when the power fails'), whole[:len(whole) * 2 // 3])
        # Clusters of unknown size, as browsers and cameras write them: all bits of the size are ones. Nothing leads
        # behind the first Cluster, so that a size may have another length there.
        for source, name, size, seek in (('live-pipe-all.mkv', 'hand-unknown.mkv', 8, True),
                                         ('live-pipe.mkv', 'hand-live.mkv', 8, False),
                                         ('live-pipe.mkv', 'hand-live-4.mkv', 4, False),
                                         ('live-pipe.mkv', 'hand-live-1.mkv', 1, False)):
            data = read(source)
            if not seek:
                # The seek head becomes a Void of the same length.
                at = data.find(b'\x11\x4d\x9b\x74')
                end = at + 5 + (data[at + 4] & 0x7F)
                data = data[:at] + b'\xec' + ((1 << 56) + end - at - 9).to_bytes(8, 'big') + data[at + 9:]
            head, *clusters = data.split(b'\x1f\x43\xb6\x75')
            ones = ((1 << 7 * size + 1) - 1).to_bytes(size, 'big')
            for cluster in clusters:
                head += b'\x1f\x43\xb6\x75' + ones + cluster[9 - cluster[0].bit_length():]
            write(add(name, '%s, each Cluster\'s size unknown, in %d bytes%s' %
                      (source, size, '' if seek else ', and no seek head')), head)
        # The same, and in the first frame, where a size of 127 leads to, stand bytes that look like Chapters.
        data = read('hand-live-1.mkv')
        at = data.find(b'\x1f\x43\xb6\x75') + 5 + 127
        false = bytes.fromhex('1043A7708F' '45B98C' 'B68A' '8088' '8586') + b'Login?'
        write(add('hand-live-false.mkv', 'hand-live-1.mkv, with bytes in a frame that look like Chapters'),
              data[:at] + false + data[at + len(false):])
        # Tracks twice, and the one that the seek head does not name says that the first track is laced.
        data = read('mm-twice.mkv')
        at = data.index(b'\x9c\x81\x00', data.index(b'\x16\x54\xae\x6b', data.index(b'\x15\x49\xa9\x66', 4000)))
        write(add('hand-twice.mkv', 'mm-twice.mkv, and the two Tracks differ in a byte'),
              data[:at + 2] + b'\x01' + data[at + 3:])
        # The same two Tracks, and two Info, with the seek head behind the first of them, in the room for another, and
        # without one: then the last stands for who reads on.
        data = read('hand-twice.mkv')
        head, room = data.index(b'\x11\x4d\x9b\x74'), data.index(b'\xec', data.index(b'\x16\x54\xae\x6b', 4000) + 183)
        size = 5 + (data[head + 4] & 0x7F)
        bare = data[:head] + void(size) + data[head + size:]
        write(add('hand-last.mkv', 'hand-twice.mkv without its seek head'), bare)
        long = 3 + int.from_bytes(data[room + 1:room + 3], 'big') - 0x4000
        write(add('hand-replaced.mkv', 'hand-twice.mkv, with its seek head moved behind the first Tracks'),
              bare[:room] + data[head:head + size] + void(long - size) + bare[room + long:])
        # The segment ends in the middle of its last part, as when that was written longer and the segment left alone.
        data = read('mm-no-seek.mkv')
        at = data.index(b'\x18\x53\x80\x67') + 5
        size = int.from_bytes(data[at:at + 7], 'big') - 40
        write(add('hand-overrun.mkv', 'mm-no-seek.mkv, and the segment says that it ends 40 bytes earlier'),
              data[:at] + size.to_bytes(7, 'big') + data[at + 7:])
        # A Void put in behind the seek head by a program that leaves the entries as they were. The segment's size, of 8
        # bytes, is set right.
        data = read('ff-all.mkv')
        at = data.find(b'\x11\x4d\x9b\x74')
        end = at + 5 + (data[at + 4] & 0x7F)
        size = int.from_bytes(data[at - 7:at], 'big') + 20
        write(add('hand-stale.mkv', 'ff-all.mkv with 20 bytes put in, and all seek entries left as they were'),
              data[:at - 7] + size.to_bytes(7, 'big') + data[at:end] + b'\xec\x92' + bytes(18) + data[end:])

    def padded(self):
        """Texts that were written over in place, as recorders with fields of fixed length and editors that move nothing
        leave them: zero bytes follow the shorter text, or a single one and what is left of the longer text."""
        mkvmerge('long.mkv', '--disable-track-statistics-tags', '--chapters', 'long-names.xml', 'source.mkv')
        mkvpropedit('long.mkv', '--edit', 'info', '--set', 'title=Boot repair of a board', '--set',
                    'muxing-application=recorder 7.1', '--set', 'writing-application=taken away too')
        mkvpropedit('long.mkv', '--edit', 'track:1', '--set', 'track-uid=71', '--set', 'name=Camera over the bench',
                    '--set', 'codec-name=MPEG-4, as filmed', '--edit', 'track:2', '--set', 'track-uid=72', '--set',
                    'name=Microphone', '--set', 'language-ietf=de-AT')
        for uid, name, kind, what in (('31', 'console of board 7.txt', 'text/plain; charset=utf-8', 'serial console'),
                                      ('32', 'nameless.txt', 'text/x-log', 'soon without a word')):
            mkvpropedit('long.mkv', '--attachment-uid', uid, '--attachment-name', name, '--attachment-mime-type', kind,
                        '--attachment-description', what, '--add-attachment', 'short.txt')
        mkvpropedit('long.mkv', '--tags', 'all:long-texts.xml')
        data = read('long.mkv')
        for old, new in (('Boot loader in the mask ROM', 'ROM'), ('probe of all drivers', 'probe'),
                         ('le noyau et le reste', '完了'), ('gone in Portuguese', ''), ('a name to be taken away', ''),
                         ('the first of two names', ''), ('en-GB', 'en'), ('pt-BR', ''), ('RAIL_MEASURED', 'RAIL'),
                         ('TAKEN_AWAY', ''), ('with its value', ''), ('COLLECTION', 'SEASON'), ('EPISODE', ''),
                         ('es-MX', 'es'), ('Camera over the bench', 'Camera'), ('Microphone', ''), ('de-AT', 'de'),
                         ('MPEG-4, as filmed', 'MPEG-4'), ('V_MPEG4/ISO/ASP', 'V_MPEG4/ISO/SP'),
                         ('console of board 7.txt', 'board.txt'), ('text/plain; charset=utf-8', 'text/plain'),
                         ('serial console', 'console'), ('nameless.txt', ''), ('soon without a word', ''),
                         ('Boot repair of a board', 'Boot'), ('taken away too', ''),
                         # What is left of these stands behind a zero byte.
                         ('recorder 7.1', 'rec\0'), ('U-Boot 2023.10', 'SPL\0'), ('fr-CA', 'fr\0'),
                         ('all but the first letter', '\0'), ('4.9 V at J4', '5 V\0'), ('text/x-log', 'text/x\0')):
            old, new = old.encode('utf-8'), new.encode('utf-8')
            if data.count(old) != 1:
                sys.exit('make.py: %r is not there once' % old)
            data = data.replace(old, new + old[len(new):] if b'\0' in new else new.ljust(len(old), b'\0'))
        write(self.add('hand-padded.mkv', 'shorter texts written over longer ones, with zero bytes behind them'), data)
        copy('hand-padded.mkv', self.add('pe-padded.mkv', 'hand-padded.mkv edited: some of the zero bytes are gone'))
        mkvpropedit('pe-padded.mkv', '--edit', 'track:1', '--set', 'flag-default=0', '--attachment-description', 'log',
                    '--update-attachment', '1')

    def by_gstreamer(self):
        add = self.add
        if not has_gstreamer():
            print('make.py: without GStreamer (gst-launch-1.0 with %s): its three recordings are left out' %
                  ', '.join(GST_NEEDS))
            return
        run(*gstreamer(add('gst-tags.mkv', 'GStreamer, with tags'), 'num-buffers=10', 'taginject',
                       'tags=artist=Bench,comment=5V', '!', 'matroskamux'))
        run(*gstreamer(add('gst-live.mkv', 'GStreamer, live: segment and Clusters of unknown size, no seek head'),
                       'num-buffers=10', 'matroskamux', 'streamable=true'))
        out = add('gst-killed.mkv', 'GStreamer, killed: seek positions of all ones')
        kill_at(out, 12000, gstreamer(out, 'is-live=true', 'matroskamux'))

    def large(self):
        add = self.add
        picture = ('-f', 'lavfi', '-i', 'testsrc2=s=320x240:r=15:d=12')
        tone = ('-f', 'lavfi', '-i', 'sine=440:d=12:r=44100')
        ffmpeg('large-source.mkv', *picture, *tone, '-c:v', 'mjpeg', '-q:v', '4', *PCM, '-ac', '2', *BITEXACT)
        write('large.ffmeta', ff_chapters(STAGES, 2000, 'title=A long boot\nRAIL=5V'))
        ffmpeg(add('large-ff.mkv', 'large, by ffmpeg, with an attachment of 140 kB'), '-i', 'large-source.mkv', '-i',
               'large.ffmeta', *COPY, '-map_metadata', '1', '-attach', 'console-long.txt', '-metadata:s:t:0',
               'mimetype=text/plain')
        mkvmerge(add('large-mm.mkv', 'large, by mkvmerge, with everything'), '--chapters', 'rich.xml', '--global-tags',
                 'rich-tags.xml', '--attach-file', 'console.txt', '--attach-file', 'console-long.txt',
                 'large-source.mkv')
        copy('large-mm.mkv', add('large-edited.mkv', 'large, and edited: parts stand behind the clusters'))
        mkvpropedit('large-edited.mkv', '--chapters', 'long.xml')
        mkvpropedit('large-edited.mkv', '--tags', 'all:many-tags.xml')
        mkvpropedit('large-edited.mkv', '--attachment-name', 'dump.bin', '--add-attachment', 'dump.bin')
        piped(add('large-live.mkv', 'large, through a pipe'), '-i', 'large-source.mkv', '-i', 'large.ffmeta', *COPY,
              '-map_metadata', '1', '-attach', 'console.txt', '-metadata:s:t:0', 'mimetype=text/plain')
        killed_mkvmerge(add('killed-mkvmerge.mkv', 'mkvmerge was killed: the segment has no size yet'), 40000,
                        '--chapters', 'rich.xml', '--global-tags', 'rich-tags.xml', '--attach-file', 'console.txt',
                        'large-source.mkv')
        # A chapter has seven elements, and the edition two more: 4,090 and 4,097 of them.
        for name, count in (('fill.xml', 584), ('over.xml', 585)):
            write(name, chapters(edition(*[atom(i * MILLION, display('Step %d' % i, ['eng']), uid=1 + i)
                                           for i in range(count)], uid=1)))
        mkvmerge(add('large-chapters.mkv', 'so many chapters that the largest table is nearly full'), '--chapters',
                 'fill.xml', 'source.mkv')
        mkvmerge(add('large-over.mkv', 'more chapters than the largest table has rows for'), '--chapters', 'over.xml',
                 'source.mkv')

    def all(self):
        os.chdir(self.folder)
        self.inputs()
        ffmpeg('mm-cut-source.mkv', *PICTURE, '-c:v', 'mjpeg', '-q:v', '20', *BITEXACT)
        self.by_ffmpeg()
        self.by_mkvmerge()
        self.edited()
        self.by_hand()
        self.padded()
        self.by_gstreamer()
        self.large()
        write('list', ''.join(self.listed))


if __name__ == '__main__':
    if len(sys.argv) != 2:
        sys.exit('usage: real/make.py FOLDER')
    os.makedirs(sys.argv[1], exist_ok=True)
    Maker(sys.argv[1]).all()
