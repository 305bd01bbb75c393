"""What ./report, ./bed12, ./clip and ./check-clipped share: an input as it is stored, inflated block by block and gone through piece by piece; an output of which nothing that is not written goes
unnoticed; progress on a terminal; whether what is proved is built; and the words on standard error with the exit status."""
import collections
import concurrent.futures
import fcntl
import itertools
import os
import re
import select
import shlex
import stat
import struct
import subprocess
import sys
import time
import zlib

TOP = os.path.dirname(os.path.dirname(os.path.realpath(__file__)))
TARGET = os.path.join(TOP, 'target')
PIECE = 1 << 20  # bytes that are read at once
NAME = os.path.basename(TOP)  # what stands before the words on standard error: each script gives its own


class Failed(Exception):
    """There is no answer, and why."""


class Unwritten(Exception):
    """The answer can't be written, and why; no words where nobody reads it any more."""


class Damaged(Exception):
    """The input can be read no further, and why."""


class Short(Exception):
    """A stream ends where more was due."""


def put_words(text):
    try:
        sys.stderr.write(text)
        sys.stderr.flush()
    except OSError:
        pass  # the exit status still tells


def say(text):
    put_words(f'{NAME}: {text}\n')


def shown(path):
    """A path on one line."""
    return path if path.isprintable() else ascii(path)


# ---- what is proved and built first


def crates(names):
    """The folders of the crates that some are made of, by crates.txt."""
    below = {}
    with open(os.path.join(TOP, 'crates.txt'), encoding='utf-8') as lines:
        for line in lines:
            name, colon, others = line.partition(':')
            if colon:
                below[name.split()[0]] = others.split()  # a static library has a second word
    used, todo = set(), list(names)
    while todo:
        name = todo.pop()
        if name in below and name not in used:
            used.add(name)
            todo += below[name]
    return [os.path.join(TOP, 'crates', name) for name in sorted(used)]


def is_built(files, names):
    """Whether the files are there that are made of some crates, and nothing of these is newer; what rt makes beside them is none of it."""
    try:
        made = min(os.stat(file).st_mtime for file in files)
    except OSError:
        return False
    out = os.sep + 'out'
    parts = (os.path.join(folder, name) for crate in crates(names) for folder, _, names in os.walk(crate) if not (folder + os.sep).startswith(crate + out + os.sep) for name in names)
    return all(os.stat(part).st_mtime <= made for part in itertools.chain([os.path.join(TOP, 'crates.txt')], parts))


def build(what, files, names, make):
    """Makes the files where they have to be made; one script at a time, the others wait. The lock is handed on, to be held until whoever makes them has ended, too."""
    if is_built(files, names):
        return
    try:
        os.makedirs(TARGET, exist_ok=True)
        lock = open(os.path.join(TARGET, 'report.lock'), 'a')
    except OSError as error:
        raise Failed(f'{what} have to be built first, and {shown(TARGET)} is not for writing: {error.strerror}')
    with lock:
        try:
            fcntl.flock(lock, fcntl.LOCK_EX | fcntl.LOCK_NB)
        except BlockingIOError:
            say(f'{what} are being built already; waiting')
            fcntl.flock(lock, fcntl.LOCK_EX)
        if not is_built(files, names):
            make(lock)


LIBRARIES = os.path.join(TARGET, 'libraries', os.uname().machine)
ARCHIVES = ('exports', 'exports_reads', 'exports_long', 'exports_records')


def prove_libraries(lock):
    """Proves and builds the library of the calls."""
    if subprocess.run([os.path.join(TOP, 'build-libraries')], stdin=subprocess.DEVNULL, stdout=subprocess.DEVNULL, pass_fds=[lock.fileno()]).returncode:
        raise Failed('the library of the calls was not built: target/libraries.log says why')


def calls():
    """The binding, over the library, which is built where it has to be."""
    if 'SELVEDGEKITE_LIB' not in os.environ:
        build('the libraries', [os.path.join(LIBRARIES, f'lib{name}') for name in (*(f'{crate}.a' for crate in ARCHIVES), 'selvedgekite.so')], ARCHIVES, prove_libraries)
    sys.path.insert(0, os.path.join(TOP, 'bindings', 'python'))
    import selvedgekite
    return selvedgekite


# ---- the input, as it is stored


class Source:
    """An input: its name, and how many of its bytes were read."""

    def __init__(self, path):
        self.name = 'standard input' if path == '-' else shown(path)
        self.done, self.ahead = 0, b''
        try:
            self.file = 0 if path == '-' else os.open(path, os.O_RDONLY)
            status = os.fstat(self.file)
        except OSError as error:
            raise Failed(f"{self.name} can't be read: {error.strerror}")
        if stat.S_ISDIR(status.st_mode):
            raise Failed(f'{self.name} is a directory: give the files in it, as {self.name.rstrip("/")}/*.bam')
        self.total = status.st_size if stat.S_ISREG(status.st_mode) else 0
        self.start = os.lseek(self.file, 0, os.SEEK_CUR) if self.total else 0

    def read(self):
        """The next bytes; none at the end."""
        data, self.ahead = self.ahead, b''
        try:
            while not data:
                try:
                    data = os.read(self.file, PIECE)
                    break
                except BlockingIOError:
                    select.select([self.file], [], [])
        except OSError as error:
            raise Damaged(f"it can't be read to its end: {error.strerror}")
        self.done += len(data)
        return data

    def first(self, n):
        """The first n bytes, or all where there are fewer; they are still to be read."""
        data = b''
        try:
            while len(data) < n:
                more = self.read()
                data += more
                if not more:
                    break
        except Damaged:
            pass  # the next read says it again
        self.ahead, self.done = data, 0
        return data[:n]

    def rewind(self):
        os.lseek(self.file, self.start, os.SEEK_SET)
        self.done, self.ahead = 0, b''

    def close(self):
        if self.file:
            os.close(self.file)


def stored(source):
    """The bytes of an input that is not compressed."""
    return iter(source.read, b'')


def gunzipped(source):
    """What a gzip file holds that has no BGZF blocks: one part or more, and zeros at the end."""
    inflater, data = zlib.decompressobj(31), source.read()
    while data:
        try:
            yield inflater.decompress(data, PIECE)
        except zlib.error:
            raise Damaged('the gzip file is damaged')
        data = inflater.unconsumed_tail
        if inflater.eof:
            data = inflater.unused_data or source.read()
            while data and not data.strip(b'\0'):
                data = source.read()
            inflater = zlib.decompressobj(31) if data else None
        data = data or source.read()
    if inflater:
        raise Damaged('the gzip file was cut off')


# ---- BGZF (SAM specification 4.1): blocks of at most 64 KiB, the last one empty

BLOCK = struct.Struct('<4s6xH')
END = bytes.fromhex('1f8b08040000000000ff0600424302001b0003000000000000000000')
LARGEST = 1 << 16  # bytes that a block holds
GROUP = 16  # blocks that a thread takes at once
THREADS = min(4, len(os.sched_getaffinity(0)))


def block_length(data, at):
    """The length of the block that begins there; 0 where none does, none where more has to be read to know."""
    if len(data) < at + BLOCK.size:
        return None if data.startswith(END[:4][:len(data) - at], at) else 0
    mark, extra = BLOCK.unpack_from(data, at)
    if mark != END[:4]:
        return 0
    part, end = at + BLOCK.size, at + BLOCK.size + extra
    if len(data) < end:
        return None
    while part + 6 <= end:
        name, size, length = struct.unpack_from('<2sHH', data, part)
        if name == b'BC' and size == 2:
            return length + 1 if at + length + 1 >= end + 8 else 0
        part += 4 + size
    return 0


def blocks(source):
    """The blocks of an input, each with its place."""
    data, at, before, last = b'', 0, 0, b''
    while True:
        length = block_length(data, at)
        if length and at + length <= len(data):
            last = data[at:at + length]
            yield before + at, last
            at += length
            continue
        if length == 0:
            raise Damaged(f'it is damaged at byte {before + at:,}: no block begins there')
        more = source.read()
        if not more:
            break
        before += at
        data, at = data[at:] + more, 0
    if at < len(data):
        raise Damaged(f'it was cut off inside the block at byte {before + at:,}')
    if last != END:
        raise Damaged('it was cut off: the block that ends a BAM file is missing')


def grouped(source):
    """The blocks of an input, some at a time, and what is wrong behind the last ones."""
    group, wrong = [], None
    try:
        for block in blocks(source):
            group.append(block)
            if len(group) == GROUP:
                yield group, None
                group = []
    except Damaged as error:
        wrong = error
    yield group, wrong


def inflate_block(block):
    """What a block holds; its sum and its length have to be right."""
    start = BLOCK.size + BLOCK.unpack_from(block)[1]
    inflater = zlib.decompressobj(-15)
    data = inflater.decompress(block[start:-8], LARGEST + 1)
    if not inflater.eof or inflater.unused_data or struct.unpack('<II', block[-8:]) != (zlib.crc32(data), len(data)) or len(data) > LARGEST:
        raise zlib.error
    return data


def inflate(group, wrong):
    """What the blocks of a group hold up to the first that is damaged, and what is wrong there or behind them."""
    parts = []
    for place, block in group:
        try:
            parts.append(inflate_block(block))
        except zlib.error:
            return parts, Damaged(f'it is damaged: the block at byte {place:,} does not hold what it should')
    return parts, wrong


def in_threads(groups):
    """What groups of blocks hold, in their order; threads inflate some of them ahead."""
    with concurrent.futures.ThreadPoolExecutor(THREADS) as pool:
        ahead = collections.deque()
        for group, wrong in groups:
            ahead.append(pool.submit(inflate, group, wrong))
            if len(ahead) > 2 * THREADS:
                yield ahead.popleft().result()
        while ahead:
            yield ahead.popleft().result()


def inflated(source):
    """What a BGZF file holds."""
    for parts, wrong in in_threads(grouped(source)):
        yield from parts
        if wrong:
            raise wrong


def opened(source):
    """Whether an input is a BAM file, and its bytes, uncompressed."""
    first = source.first(BLOCK.size)
    if first.startswith(END[:4]) and b'BC\2\0' in source.first(BLOCK.size + int.from_bytes(first[10:], 'little')):
        return True, inflated(source)
    if first.startswith(END[:2]):
        return True, gunzipped(source)
    return first.startswith(b'BAM\1'), stored(source)


# ---- the stream, piece by piece

NUMBER = struct.Struct('<I').unpack_from
READABLE = bytes(n if 33 <= n <= 126 else 63 for n in range(256))  # any other byte is a question mark


class Stream:
    """The bytes of a stream: those at hand, and the place up to which they were gone through."""

    def __init__(self, chunks):
        self.chunks, self.data, self.at = chunks, b'', 0

    def more(self, n=1):
        """Gets the next n bytes, or more, or all where there are fewer; whether there are any."""
        parts, found = [self.data[self.at:]], 0
        while found < n and (chunk := next(self.chunks, None)) is not None:
            parts.append(chunk)
            found += len(chunk)
        if found:
            self.data, self.at = b''.join(parts), 0
        return found > 0

    def skip(self, n):
        """Goes over n bytes."""
        while n:
            if self.at == len(self.data) and not self.more():
                raise Short
            step = min(n, len(self.data) - self.at)
            self.at, n = self.at + step, n - step

    def take(self, n):
        """The next n bytes."""
        while len(self.data) - self.at < n:
            if not self.more():
                raise Short
        self.at += n
        return self.data[self.at - n:self.at]

    def number(self):
        return NUMBER(self.take(4))[0]


def read_head(stream, keep):
    """Goes over what stands before the records of a BAM file (SAM specification 4.2); the names of its references, where they are to be kept."""
    if stream.take(4) != b'BAM\1':
        raise Short
    stream.skip(stream.number())
    names = []
    for _ in range(stream.number()):
        length = stream.number()
        name = stream.take(min(length, 1 << 16))
        stream.skip(length - len(name))
        stream.skip(4)
        if keep:
            names.append(name.split(b'\0', 1)[0].translate(READABLE) or b'*')
    return names


def read_name(data, at, size, length):
    """The name of the read whose record of `size` bytes stands there."""
    return data[at + 32:at + min(size, 32 + length)].split(b'\0', 1)[0].translate(READABLE) or b'*'


MOST = 1 << 28  # bytes of a record; more is no record


def at_hand(stream):
    """The records that are at hand, and how many bytes the next one lacks; 0 where it is no record."""
    data, at, found = stream.data, stream.at, []
    while at + 4 <= len(data):
        size, = NUMBER(data, at)
        if size > MOST:
            stream.at = at
            return found, 0
        if at + 4 + size > len(data):
            break
        found.append(data[at + 4:at + 4 + size])
        at += 4 + size
    stream.at = at
    lacks = at + 4 - len(data)
    return found, lacks if lacks > 0 else at + 4 + NUMBER(data, at)[0] - len(data)


def records(stream):
    """The records of a BAM file behind its head, some at a time."""
    count = 0
    while True:
        found, lacks = at_hand(stream)
        count += len(found)
        yield found
        if not lacks:
            raise Damaged(f'it is damaged: record {count + 1:,} would have {NUMBER(stream.data, stream.at)[0]:,} bytes')
        if not stream.more(lacks):
            break
    if stream.at < len(stream.data):
        raise Damaged(f'it was cut off: it ends inside record {count + 1:,}')


def is_placeholder(kite, record):
    """Two ops, an S as long as the sequence and an N."""
    if record[12:14] != b'\2\0':
        return False
    ops = kite.get_cigar_ops(record)
    return len(ops) == 2 and ops[0] == kite.l_seq(record) << 4 | 4 and ops[1] & 15 == 3


# ---- the answer


class Output:
    """Standard output. Nothing that is not written goes unnoticed."""

    def put(self, data):
        view = memoryview(data)
        while view:
            try:
                view = view[os.write(1, view):]
            except BlockingIOError:
                select.select([], [1], [])
            except BrokenPipeError:
                raise Unwritten('')
            except OSError as error:
                raise Unwritten(f'the answer could not be written: {error.strerror}')

    def close(self):
        try:
            os.close(1)
        except OSError as error:
            raise Unwritten(f'the answer could not be written: {error.strerror}')


class Progress:
    """A line on a terminal, while an input takes longer than a second: bytes read, records a second, time left."""

    def __init__(self, source, prints=True):
        self.source, self.records, self.shown = source, 0, 0
        self.start = time.monotonic()
        self.on = os.isatty(2) and not (prints and os.isatty(1))

    def more(self, records):
        if not self.on:
            return
        self.records += records
        now = time.monotonic()
        if now - self.start < 1 or now - self.shown < 0.2:
            return
        self.shown, took = now, now - self.start
        done, total = self.source.done, self.source.total
        text = f'{done / 1e6:,.0f} of {total / 1e6:,.0f} MB' if total else f'{done / 1e6:,.0f} MB'
        text += f', {self.records / took:,.0f} records a second'
        if total and done:
            text += f', {max(0, total - done) * took / done:,.0f} s left'
        put_words(f'\r\033[K{NAME}: {self.source.name}: {text}')

    def end(self):
        if self.shown:
            put_words('\r\033[K')


# ---- in words


def kind_in_words(name, begins):
    """What an input is that can't be read, where its first bytes tell, and what to do."""
    given, made = ('-', 'FILE.bam') if name == 'standard input' else (shlex.quote(name), shlex.quote(re.sub(r'(\.(cram|sam|gz))*$', '', name) + '.bam'))
    if not begins:
        return 'it is empty: it was not written, or not copied; make it again'
    if begins.startswith(b'CRAM'):
        return f'it is a CRAM file; this makes a BAM file of it: samtools view -b -T REFERENCE.fa {given} > {made}'
    if re.match(rb'@(HD|SQ|RG|PG|CO)\t|[!-~]+\t\d+\t[!-~]+\t\d+\t\d+\t', begins):
        return f'it is SAM text; this makes a BAM file of it: samtools view -b {given} > {made}'
    if begins.startswith((b'BAI\1', b'CSI\1')):
        return 'it is the index of a BAM file: give the BAM file itself'
    return ''


def no_bam(name, begins):
    """What an input is that has no whole head of a BAM file."""
    if b'BAM\1'.startswith(begins[:4]) and begins:
        return 'it was cut off: it ends inside its head'
    if begins.startswith(b'CGR'):
        return 'it is a stream of records, which has no head and no names of references: give the BAM file'
    return kind_in_words(name, begins) or 'it is no BAM file'


def gone_through(source, go, prints=True):
    """Has `go` go through a BAM file; what is wrong with it, nothing where it was gone through to its end."""
    stream, progress, begins = Stream(opened(source)[1]), Progress(source, prints), b''
    try:
        stream.more(512)
        begins = stream.data[:512]
        go(stream, progress)
        return ''
    except Short:
        return no_bam(source.name, begins)
    except Damaged as error:
        return str(error)
    finally:
        progress.end()


# ---- the command


def standard_files():
    """Where a standard file is closed, the next one opened would take its place."""
    for number in (0, 1, 2):
        try:
            os.fstat(number)
        except OSError:
            os.open(os.devnull, os.O_RDONLY)
            sys.stderr = sys.stderr or open(os.devnull, 'w')


def end_with(main):
    """Ends a script with what its command comes to, and says what kept it from an answer."""
    try:
        status = main()
    except (Failed, OSError) as error:
        say(error)
        status = 1
    except Unwritten as error:
        if str(error):
            say(error)
        status = 1 if str(error) else 141  # 141: as for a program that a closed pipe has ended
    except KeyboardInterrupt:
        status = 130
    os._exit(status)  # a thread may still wait for its input
