"""Records, streams and BAM files for the tests of the report, and an independent rendering of its lines from document 01's rules."""
import gzip
import os
import socket
import struct
import subprocess

TOP = os.path.dirname(os.path.dirname(os.path.abspath(__file__)))
CODES = 'MIDNSHP=X'
REFERENCE, QUERY, CLIPS = {0, 2, 3, 7, 8}, {0, 1, 4, 7, 8}, {4, 5}
MARK = b'CGR\x01\x00'
MOST, TEXT_ROOM = 32768, 65536


def ops_of(text):
    """The numbers of an op list in text; the codes past X are written [9] to [15]."""
    ops, length, i = [], '', 0
    while i < len(text):
        if text[i].isdigit():
            length += text[i]
            i += 1
            continue
        if text[i] == '[':
            end = text.index(']', i)
            code, i = int(text[i + 1:end]), end + 1
        else:
            code, i = CODES.index(text[i]), i + 1
        ops.append(int(length) * 16 + code)
        length = ''
    return ops


def record(ops, pos=99, flags=0, l_seq=None, name=b'r\0', stored_bin=0, count=None, seq=None, tail=b'', reference=0, mapq=0):
    """A record without its size. `ops` is text or a list of numbers; `count` and `l_seq` may lie."""
    ops = ops_of(ops) if isinstance(ops, str) else ops
    query = sum(op >> 4 for op in ops if op & 15 in QUERY)
    l_seq = query if l_seq is None else l_seq
    seq = bytes((l_seq + 1) // 2 + l_seq) if seq is None else seq
    fixed = struct.pack('<iiBBHHHIiii', reference, pos, len(name) & 255, mapq, stored_bin, (len(ops) if count is None else count) & 65535, flags, l_seq & 0xFFFFFFFF, -1, -1, 0)
    return fixed + name + struct.pack(f'<{len(ops)}I', *ops) + seq + tail


def framed(records):
    return b''.join(struct.pack('<I', len(r)) + r for r in records)


def stream(records):
    return MARK + framed(records)


class Refused(Exception):
    pass


def fits(n):
    if not -2**31 <= n < 2**31:
        raise Refused(4)
    return n


def record_ops(rec):
    name, count = rec[8], struct.unpack_from('<H', rec, 12)[0]
    end = 32 + name + 4 * count
    return (list(struct.unpack_from(f'<{count}I', rec, 32 + name)), True) if end <= len(rec) else ([], False)


def five_prime(rec, ops):
    pos, flags = struct.unpack_from('<i', rec, 4)[0], struct.unpack_from('<H', rec, 14)[0]
    if flags & 4 or not ops:
        return '.'
    at = fits(pos + 1)
    if not flags & 16:
        clips = 0
        for op in ops:
            if op & 15 not in CLIPS:
                break
            clips = fits(clips + (op >> 4))
        return fits(at - clips)
    refs, clips, seen = 0, 0, False
    for op in ops:
        if op & 15 in REFERENCE:
            refs, clips, seen = fits(refs + (op >> 4)), 0, True
        elif op & 15 in CLIPS and seen:
            clips = fits(clips + (op >> 4))
    return fits(fits(fits(at + refs) + clips) - 1)


def bin_of(rec, length):
    beg = struct.unpack_from('<i', rec, 4)[0]
    if beg < 0:
        return 4680
    last = fits(beg + max(1, length)) - 1
    for shift, first in ((14, 4681), (17, 585), (20, 73), (23, 9), (26, 1)):
        if beg >> shift == last >> shift:
            return (first + (beg >> shift)) & 65535
    return 0


def fields(rec):
    if len(rec) < 32:
        raise Refused(1)
    ops, whole = record_ops(rec)
    if any(op & 15 > 8 for op in ops):
        raise Refused(7)
    text = ''.join(f'{op >> 4}{CODES[op & 15]}' for op in ops)
    if len(text) > TEXT_ROOM:
        raise Refused(6)
    if not whole:
        raise Refused(2)
    refs = fits(sum(op >> 4 for op in ops if op & 15 in REFERENCE))
    query = sum(op >> 4 for op in ops if op & 15 in QUERY)
    stored = struct.unpack_from('<I', rec, 16)[0]
    return text or '*', refs, query, five_prime(rec, ops), bin_of(rec, refs), int(query == stored) if stored else '-'


def line(number, rec):
    try:
        return '\t'.join(map(str, (number, *fields(rec)))) + '\n'
    except Refused as why:
        return f'{number}\trefused\t{why.args[0]}\n'


def expected(data):
    """What document 01's program prints of a stream."""
    if data[:5] != MARK:
        return 'bad input\n'
    out, at, n = [], 5, 0
    while at < len(data):
        if at + 4 > len(data):
            out.append('cut short\n')
            break
        size = struct.unpack_from('<I', data, at)[0]
        if size > MOST:
            out.append('too long\n')
            break
        if at + 4 + size > len(data):
            out.append('cut short\n')
            break
        n += 1
        out.append(line(n, data[at + 4:at + 4 + size]))
        at += 4 + size
    return ''.join(out) + f'records {n}\n'


def bam(records, text=b'@HD\tVN:1.6\n', references=((b'chr1\0', 1000),)):
    """An uncompressed BAM stream (SAM specification 4.2)."""
    return b'BAM\x01' + struct.pack('<I', len(text)) + text + struct.pack('<I', len(references)) + b''.join(
        struct.pack('<I', len(name)) + name + struct.pack('<I', length) for name, length in references) + framed(records)


NOT_BAM, HEAD_CUT = b'bam_to_cgr: not a BAM stream\n', b'bam_to_cgr: the head of the BAM stream is cut short\n'
UNREAD, UNWRITTEN = b": the input can't be read to its end\n", b": the output can't be written\n"


def converted(data):
    """What bam_to_cgr writes of a stream, and what it says."""
    if data[:4] != b'BAM\x01':
        return b'', NOT_BAM
    try:
        at = 8 + struct.unpack_from('<I', data, 4)[0]
        count = struct.unpack_from('<I', data, at)[0]
        at += 4
        for _ in range(count):
            at += 4 + struct.unpack_from('<I', data, at)[0] + 4
    except struct.error:
        return b'', HEAD_CUT
    return (MARK + data[at:], b'') if at <= len(data) else (b'', HEAD_CUT)


EOF_MARKER = bytes.fromhex('1f8b08040000000000ff0600424302001b0003000000000000000000')


def bgzf(data, block=65280):
    """The data in BGZF blocks (SAM specification 4.1) with the end-of-file marker."""
    out = []
    for at in range(0, len(data), block):
        packed = gzip.zlib.compressobj(6, gzip.zlib.DEFLATED, -15)
        part = data[at:at + block]
        body = packed.compress(part) + packed.flush()
        out.append(b'\x1f\x8b\x08\x04\0\0\0\0\0\xff\x06\0BC\x02\0' + struct.pack('<H', len(body) + 25) + body + struct.pack('<II', gzip.zlib.crc32(part), len(part)))
    return b''.join(out) + EOF_MARKER


def command(program):
    """How a proved program of the repository is run."""
    return [os.path.join(TOP, 'target', 'bin', program)]


def build(*programs):
    """Has ./report, which builds the two programs where that has to be, build them."""
    if not all(os.path.exists(os.path.join(TOP, 'target', 'bin', p)) for p in programs):
        subprocess.run([os.path.join(TOP, 'report'), os.path.join(TOP, 'examples', 'sample.bam')], check=True, stdout=subprocess.DEVNULL)


def run(program, data):
    return subprocess.run(command(program), input=data, capture_output=True, timeout=120)


def run_failing(program, data):
    """The program on a socket that gives the data, and whose next read fails: the other end is closed with a byte unread."""
    ours, its = socket.socketpair()
    with its:
        its.send(b'x')
        with ours:
            ours.sendall(data)
        return subprocess.run(command(program), stdin=its, capture_output=True, timeout=60)


def run_directory(program):
    """The program where no read goes well."""
    at = os.open('/', os.O_RDONLY)
    try:
        return subprocess.run(command(program), stdin=at, capture_output=True, timeout=60)
    finally:
        os.close(at)


def ends_of_full(program, data):
    """How the program ends, and what it says, where its output takes nothing: a full device, and a pipe that nobody reads, with its signal ignored and not."""
    with open('/dev/full', 'wb') as full:
        ends = [subprocess.run(command(program), input=data, stdout=full, stderr=subprocess.PIPE, timeout=60)]
    for restored in (False, True):
        end, pipe = os.pipe()
        os.close(end)
        with os.fdopen(pipe, 'wb') as closed:
            ends.append(subprocess.run(command(program), input=data, stdout=closed, stderr=subprocess.PIPE, timeout=60, restore_signals=restored))
    return [(end.returncode, end.stderr) for end in ends]
