#!/usr/bin/env python3
"""report.py FILE: what ./report prints of a BAM file, compressed or not, by the proved calls from Python and nothing but the
standard library. ./build-libraries has to be run first. Inflating the file, finding its records and printing are this script's, and
not proved."""
import gzip
import os
import struct
import sys

sys.path.insert(0, os.path.join(os.path.dirname(os.path.realpath(__file__)), '..', 'bindings', 'python'))
import selvedgekite as cigar

MOST = 32768  # bytes of a record; more is too long
ROOM = 65536  # bytes of a CIGAR as text; more is refused by 6


def opened(path):
    """A file's bytes, uncompressed."""
    with open(path, 'rb') as file:
        packed = file.read(2) == b'\x1f\x8b'
    return gzip.open(path) if packed else open(path, 'rb')


def take(file, n):
    """The next n bytes."""
    data = file.read(n)
    if len(data) < n:
        raise EOFError
    return data


def number(file):
    return struct.unpack('<I', take(file, 4))[0]


def skip_head(file):
    """Goes over the head: its text, and the names and lengths of the references. Whether there is one."""
    try:
        if take(file, 4) != b'BAM\1':
            return False
        take(file, number(file))
        for _ in range(number(file)):
            take(file, number(file) + 4)
        return True
    except EOFError:
        return False


def records(file):
    """The bytes of each record; ValueError at one that is too long, EOFError where the file was cut."""
    while file.peek(1):
        size = number(file)
        if size > MOST:
            raise ValueError
        yield take(file, size)


def columns(record):
    """A record's CIGAR, its two lengths, its unclipped 5' position, `.` where it is unmapped or has no ops, its bin, and whether its query length is that of the stored sequence, `-` where none is stored."""
    text = cigar.cigar_to_bytes_into(record).decode()
    if len(text) > ROOM:
        raise cigar.Refusal(6)
    reference = cigar.reference_length_from_raw_bam_checked(record)
    query, stored = cigar.query_length(record), cigar.l_seq(record)
    five = cigar.unclipped_5prime_from_raw_bam(record)
    return text or '*', reference, query, '.' if five in (cigar.UNMAPPED, cigar.NO_OPS) else five, cigar.bin_from_raw_bam(record), int(query == stored) if stored else '-'


def main():
    if len(sys.argv) != 2:
        sys.exit(__doc__)
    n = 0
    with opened(sys.argv[1]) as file:
        if not skip_head(file):
            print('bad input')
            return
        try:
            for n, record in enumerate(records(file), 1):
                try:
                    print(n, *columns(record), sep='\t')
                except cigar.Refusal as why:
                    print(n, 'refused', why.number, sep='\t')
        except ValueError:
            print('too long')
        except EOFError:
            print('cut short')
    print('records', n)


main()
