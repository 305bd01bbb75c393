"""The proved CIGAR arithmetic, from Python: every call of include/cigar.h, by the original's name, without `cigar_` before it.

A record is bytes, or whatever holds bytes (those behind block_size); a text is bytes or a str; a list of ops is a list or an
array('I') of their numbers (length * 16 + code). A call that would lend memory answers a list or bytes of its own instead.
Every call answers or raises `Refusal`, whose `number` is the refusal's; where the original answers none, so does the call.
`unclipped_5prime_from_raw_bam` and `true_unclipped_5prime_from_raw_bam` answer a number, `UNMAPPED` or `NO_OPS`.
A number that its place can't hold is an OverflowError, and what is no record, text, list or number a TypeError.

The shared library is libselvedgekite.so, that ./build-libraries writes to target/libraries/ at the top of the repository;
SELVEDGEKITE_LIB names another folder."""
import os
from array import array
from ctypes import CDLL, POINTER, Structure, c_bool, c_char_p, c_int32, c_int64, c_size_t, c_uint8, c_uint16, c_uint32, c_uint64
from operator import index

WORDS = {
    1: 'a record has under 32 bytes',
    2: 'the op area, or in clipping a record its last quality, ends past the record',
    3: 'a list has over 65,535 ops (a long one over 1,048,576)',
    4: 'a signed 32-bit sum overflows',
    5: 'the text is no valid mapped CIGAR',
    6: 'the answer is longer than the lent output',
    7: 'printing met an op code 9 to 15',
    8: 'clipping: the lengths sum to 2^28 or more',
    9: 'lookup: alignment start outside 1 to 2^31',
    10: 'op length 0 or above 268,435,455',
    12: 'behind a placeholder, bases, qualities or tags overrun the record, or a tag has no known type',
    13: 'the tag CG is no array of unsigned 32-bit numbers',
    14: 'no blocks: a start below 0, no block, or an N before the first or after the last',
    15: 'clipping a record: its query length is not its l_seq',
    16: 'clipping a record: over 65,535 ops would be left',
    17: 'CSI bins: min_shift outside 10 to 20, or depth outside 1 to 8',
    18: 'CSI bins: not 0 <= beg < end <= 2^(min_shift + 3 * depth)',
    19: 'clipping: the amount is beyond what can be clipped',
    20: 'malformed MD',
    21: 'a list that already holds = or X',
    22: 'MD and the list disagree',
    23: 'the received record has under 32 bytes',
    24: 'the received record ends before its last quality',
}


# what the unclipped position is told as in place of a number, for an unmapped record, and for one without ops
UNMAPPED, NO_OPS = 'unmapped', 'no_ops'

# what the receiving check answers: that the record is accepted, or its first part that differs
ACCEPTED = 'accepted'
CHECKED = (ACCEPTED, 'header', 'name', 'ops', 'bases', 'qualities', 'tags')


class Refusal(Exception):
    """Why a call answers no value: its number and its words."""

    def __init__(self, number):
        super().__init__(number)
        self.number = number
        self.words = WORDS[number]

    def __str__(self):
        return f'refusal {self.number}: {self.words}'


# ---- the structs and the calls of include/cigar.h


class Int(Structure):
    _fields_ = [('refusal', c_uint32), ('value', c_int32)]


class Count(Structure):
    _fields_ = [('refusal', c_uint32), ('value', c_uint64)]


class Flag(Structure):
    _fields_ = [('refusal', c_uint32), ('value', c_bool)]


class Found(Structure):
    _fields_ = [('refusal', c_uint32), ('found', c_bool), ('value', c_uint64)]


class Lookup(Structure):
    _fields_ = [('refusal', c_uint16), ('found', c_bool), ('examined', c_uint32), ('value', c_uint64)]


class Position(Structure):
    _fields_ = [('refusal', c_uint32), ('which', c_uint32), ('value', c_int32)]


class Two(Structure):
    _fields_ = [('refusal', c_uint32), ('first', c_uint64), ('second', c_uint64)]


class Lengths(Structure):
    _fields_ = [('refusal', c_uint32), ('reference', c_int32), ('query', c_uint64), ('leading_soft', c_uint64), ('leading_hard', c_uint64), ('trailing_soft', c_uint64),
                ('trailing_hard', c_uint64)]


class Blocks(Structure):
    _fields_ = [('refusal', c_uint32), ('chrom_start', c_uint32), ('chrom_end', c_uint32), ('block_count', c_uint32)]


BYTES = [c_char_p, c_size_t]
OPS = [POINTER(c_uint32), c_size_t]
ROOM = [POINTER(c_uint8), c_size_t]

DECLARED = [
    (Int, BYTES, 'ref_id pos mate_ref_id mate_pos template_length reference_length_from_raw_bam reference_length_from_raw_bam_checked'),
    (Count, BYTES, 'l_read_name bin n_cigar_op flags l_seq query_length bin_from_raw_bam'),
    (Flag, BYTES, 'is_mapped_opposite_strand_pair_raw is_fr_pair_raw'),
    (Found, BYTES, 'alignment_start_from_raw alignment_end_from_raw'),
    (Position, BYTES, 'unclipped_5prime_from_raw_bam true_unclipped_5prime_from_raw_bam'),
    (Two, BYTES, 'cigar_raw_bytes true_cigar_raw_bytes'),
    (Lengths, BYTES, 'cigar_lengths true_cigar_lengths'),
    (Count, ROOM, 'set_bin_from_raw_bam'),
    (Int, OPS, 'reference_length_from_cigar saturating_reference_length long_reference_length_from_cigar'),
    (Count, OPS, 'query_length_from_cigar long_query_length_from_cigar'),
    (Flag, OPS, 'is_valid_mapped_cigar'),
    (c_bool, [c_uint32], 'consumes_ref consumes_query consumes_read op_consumes_query op_consumes_ref'),
    (Found, [c_uint32], 'from_op_type as_char'),
    (c_uint32, [c_uint32], 'op_kind op_len'),
    (Found, [c_uint32, c_uint32], 'op_new'),
    (Count, [c_int32, c_int32], 'reg2bin'),
    (Count, [c_int64, c_int64, c_uint32, c_uint32], 'csi_reg2bin'),
    (Count, [c_int64, c_int64, c_uint32, c_uint32] + OPS, 'csi_reg2bins'),
    (Count, BYTES + OPS, 'get_cigar_ops true_cigar_ops parse_cigar_string_ops num_bases_extending_past_mate_cigar_raw'),
    (Count, BYTES + ROOM, 'cigar_to_bytes_into true_cigar_to_bytes_into'),
    (c_int32, [c_int32, c_uint8] + BYTES, 'mate_unclipped_5prime mate_unclipped_5prime_1based'),
    (Int, BYTES + [c_int32, c_uint8], 'unclipped_5prime_raw'),
    (Lookup, OPS + [c_uint64, c_uint64, c_uint8], 'read_pos_at_ref_pos_raw long_read_pos_at_ref_pos_raw'),
    (Two, OPS + [c_uint64] + OPS, 'clip_cigar_start_raw long_clip_cigar_start_raw'),
    (Count, OPS + [c_uint64] + OPS, 'clip_cigar_end_raw long_clip_cigar_end_raw'),
    (Two, BYTES + [c_uint64] + OPS, 'clip_cigar_start true_clip_cigar_start'),
    (Count, BYTES + [c_uint64] + OPS, 'clip_cigar_end true_clip_cigar_end'),
    (Two, BYTES + [c_uint64] + ROOM, 'clip_record_start'),
    (Count, BYTES + [c_uint64] + ROOM, 'clip_record_end'),
    (Count, BYTES + [c_uint64] + BYTES, 'check_clipped_start check_clipped_end'),
    (Blocks, [c_int32] + OPS + OPS + OPS, 'bed_blocks'),
    (Count, OPS + BYTES + OPS, 'match_ops_from_md'),
    (Flag, BYTES + BYTES, 'is_primary_fr_pair_raw'),
    (Count, BYTES + BYTES, 'num_bases_extending_past_mate_vs_mate_raw'),
    (Count, [c_uint8, c_int32] + OPS + [c_int32] + OPS, 'bases_extending_past_mate_ops'),
    (Two, BYTES + BYTES + OPS, 'num_bases_extending_past_mate_text_raw'),
]

__all__ = ['Refusal', 'UNMAPPED', 'NO_OPS', 'ACCEPTED', 'CHECKED'] + [name for _, _, names in DECLARED for name in names.split()]


def loaded():
    """The shared library, with its calls declared."""
    here = os.path.dirname(os.path.realpath(__file__))
    made = os.path.join(here, '..', '..', 'target', 'libraries', os.uname().machine)
    path = os.path.join(os.environ.get('SELVEDGEKITE_LIB', made), 'libselvedgekite.so')
    if not os.path.exists(path):
        raise ImportError(f'{os.path.normpath(path)} is missing: run ./build-libraries at the top of the repository')
    library = CDLL(path)
    for answer, arguments, names in DECLARED:
        for name in names.split():
            call = getattr(library, 'cigar_' + name)
            call.restype, call.argtypes = answer, arguments
    return library


C = loaded()

# ---- what goes in


def _record(bam):
    """A record's bytes, and how many."""
    data = bam if type(bam) is bytes else bytes(memoryview(bam))
    return data, len(data)


def _text(text):
    return _record(text.encode() if isinstance(text, str) else text)


def _ops(ops):
    """A list of ops, and how many."""
    numbers = ops if isinstance(ops, array) and ops.typecode == 'I' else array('I', ops)
    return (c_uint32 * len(numbers)).from_buffer(numbers), len(numbers)


def _fits(n, low, high):
    n = index(n)
    if not low <= n <= high:
        raise OverflowError(f'{n} is not between {low} and {high}')
    return n


def _i32(n):
    return _fits(n, -2**31, 2**31 - 1)


def _u32(n):
    return _fits(n, 0, 2**32 - 1)


def _i64(n):
    return _fits(n, -2**63, 2**63 - 1)


def _u64(n):
    return _fits(n, 0, 2**64 - 1)


# ---- what comes out


def _sure(answer):
    """The answer, unless it is refused."""
    if answer.refusal:
        raise Refusal(answer.refusal)
    return answer


def _value(answer):
    return _sure(answer).value


def _found(answer):
    return answer.value if _sure(answer).found else None


def _part(call, bam):
    """The part of the record that a call finds."""
    data, n = _record(bam)
    part = _sure(call(data, n))
    return data[part.first:part.first + part.second]


def _lengths(answer):
    found = _sure(answer)
    return found.reference, found.query, found.leading_soft, found.leading_hard, found.trailing_soft, found.trailing_hard


def _unclipped(answer):
    return (answer.value, UNMAPPED, NO_OPS)[_sure(answer).which]


def _lookup(answer):
    return _found(answer), answer.examined


def _filled(call, *arguments, kind=c_uint32, outputs=1, places=64):
    """The answer of a call that fills outputs, and the outputs: room is lent until it is enough."""
    while True:
        out = [(kind * places)() for _ in range(outputs)]
        answer = call(*arguments, *(word for each in out for word in (each, places)))
        if answer.refusal != 6:
            return _sure(answer), *out
        places *= 8


def _list(call, *arguments):
    """What a call writes to its output."""
    answer, out = _filled(call, *arguments)
    return out[:answer.value]


def _cut(call, *arguments):
    """The list that a call clips at the start, and the reference bases lost."""
    answer, out = _filled(call, *arguments)
    return out[:answer.first], answer.second


# ---- fields of a record


def ref_id(bam):
    """The reference's number, -1 for none."""
    return _value(C.cigar_ref_id(*_record(bam)))


def pos(bam):
    """The position, counted from 0."""
    return _value(C.cigar_pos(*_record(bam)))


def l_read_name(bam):
    """The length of the name, its NUL included."""
    return _value(C.cigar_l_read_name(*_record(bam)))


def bin(bam):
    """The bin that the record holds."""
    return _value(C.cigar_bin(*_record(bam)))


def n_cigar_op(bam):
    """The number of ops."""
    return _value(C.cigar_n_cigar_op(*_record(bam)))


def flags(bam):
    """The flags."""
    return _value(C.cigar_flags(*_record(bam)))


def l_seq(bam):
    """The length of the sequence."""
    return _value(C.cigar_l_seq(*_record(bam)))


def mate_ref_id(bam):
    """The mate's reference, -1 for none."""
    return _value(C.cigar_mate_ref_id(*_record(bam)))


def mate_pos(bam):
    """The mate's position, counted from 0."""
    return _value(C.cigar_mate_pos(*_record(bam)))


def template_length(bam):
    """The template's length."""
    return _value(C.cigar_template_length(*_record(bam)))


def cigar_raw_bytes(bam):
    """The part of the record that holds its ops, as bytes; empty where the area overruns."""
    return _part(C.cigar_cigar_raw_bytes, bam)


# ---- ops


def get_cigar_ops(bam):
    """The record's ops, a list."""
    return _list(C.cigar_get_cigar_ops, *_record(bam))


def consumes_ref(op_type):
    """Whether an op of this code, taken modulo 16, takes reference bases."""
    return C.cigar_consumes_ref(_u32(op_type))


def consumes_query(op_type):
    """Whether an op of this code, taken modulo 16, takes query bases."""
    return C.cigar_consumes_query(_u32(op_type))


def consumes_read(op_type):
    """Whether an op of this code takes bases of the read: M, I, = and X."""
    return C.cigar_consumes_read(_u32(op_type))


def from_op_type(op_type):
    """The kind, 0 to 8, of a code; None above 8."""
    return _found(C.cigar_from_op_type(_u32(op_type)))


def as_char(kind):
    """The letter of a kind, a str; None above 8."""
    letter = _found(C.cigar_as_char(_u32(kind)))
    return None if letter is None else chr(letter)


def op_new(kind, length):
    """The number of an op; None for a kind above 8."""
    return _found(C.cigar_op_new(_u32(kind), _u32(length)))


def op_kind(op):
    """The kind of an op, 0 to 8; codes 9 to 15 are told as 6, a pad."""
    return C.cigar_op_kind(_u32(op))


def op_len(op):
    """The length of an op."""
    return C.cigar_op_len(_u32(op))


def op_consumes_query(op):
    """Whether an op takes query bases."""
    return C.cigar_op_consumes_query(_u32(op))


def op_consumes_ref(op):
    """Whether an op takes reference bases."""
    return C.cigar_op_consumes_ref(_u32(op))


# ---- lengths


def reference_length_from_cigar(ops):
    """The reference length of a list."""
    return _value(C.cigar_reference_length_from_cigar(*_ops(ops)))


def query_length_from_cigar(ops):
    """The query length of a list."""
    return _value(C.cigar_query_length_from_cigar(*_ops(ops)))


def saturating_reference_length(ops):
    """The reference length of a list, 2^31 - 1 at most."""
    return _value(C.cigar_saturating_reference_length(*_ops(ops)))


def reference_length_from_raw_bam(bam):
    """The reference length of a record."""
    return _value(C.cigar_reference_length_from_raw_bam(*_record(bam)))


def reference_length_from_raw_bam_checked(bam):
    """The same."""
    return _value(C.cigar_reference_length_from_raw_bam_checked(*_record(bam)))


def query_length(bam):
    """The query length of a record."""
    return _value(C.cigar_query_length(*_record(bam)))


def cigar_lengths(bam):
    """Reference and query length of a record, then the soft and hard bases of the clips that it begins with, and of those that it ends with (0 where it has clips only)."""
    return _lengths(C.cigar_cigar_lengths(*_record(bam)))


# ---- bins


def reg2bin(beg, end):
    """The bin of the region from beg to end, counted from 0, end not included."""
    return _value(C.cigar_reg2bin(_i32(beg), _i32(end)))


def bin_from_raw_bam(bam):
    """The bin of a record, computed."""
    return _value(C.cigar_bin_from_raw_bam(*_record(bam)))


def set_bin_from_raw_bam(bam):
    """Writes the bin to bytes 10 and 11 of the record, a bytearray, and answers it."""
    return _value(C.cigar_set_bin_from_raw_bam((c_uint8 * len(bam)).from_buffer(bam), len(bam)))


def csi_reg2bin(beg, end, min_shift, depth):
    """The CSI bin of the region from beg to end, counted from 0, end not included: the smallest that holds it. With 14 and 5 it is reg2bin's."""
    return _value(C.cigar_csi_reg2bin(_i64(beg), _i64(end), _u32(min_shift), _u32(depth)))


def csi_reg2bins(beg, end, min_shift, depth):
    """All CSI bins that may overlap the region, level by level from the coarsest, ascending."""
    return _list(C.cigar_csi_reg2bins, _i64(beg), _i64(end), _u32(min_shift), _u32(depth))


# ---- text


def cigar_to_bytes_into(bam):
    """The record's CIGAR as text, in bytes."""
    answer, out = _filled(C.cigar_cigar_to_bytes_into, *_record(bam), kind=c_uint8)
    return bytes(out[:answer.value])


def parse_cigar_string_ops(text):
    """The text's ops, a list."""
    return _list(C.cigar_parse_cigar_string_ops, *_text(text))


def is_valid_mapped_cigar(ops):
    """Whether a list is a valid mapped CIGAR."""
    return _value(C.cigar_is_valid_mapped_cigar(*_ops(ops)))


def mate_unclipped_5prime(mate_pos, mate_reverse, mc_cigar):
    """The mate's unclipped 5' position by its text, counted as the given one is."""
    return C.cigar_mate_unclipped_5prime(_i32(mate_pos), bool(mate_reverse), *_text(mc_cigar))


def mate_unclipped_5prime_1based(mate_pos_0based, mate_reverse, mc_cigar):
    """The same of a position counted from 0, counted from 1."""
    return C.cigar_mate_unclipped_5prime_1based(_i32(mate_pos_0based), bool(mate_reverse), *_text(mc_cigar))


# ---- ends, lookup


def unclipped_5prime_from_raw_bam(bam):
    """The unclipped 5' position, counted from 1; UNMAPPED for an unmapped record, which is asked first, NO_OPS for one that has no ops, or whose ops overrun it."""
    return _unclipped(C.cigar_unclipped_5prime_from_raw_bam(*_record(bam)))


def unclipped_5prime_raw(bam, pos, is_reverse):
    """The position from a given one and a strand, counted as the given one is, which a record without ops answers."""
    return _value(C.cigar_unclipped_5prime_raw(*_record(bam), _i32(pos), bool(is_reverse)))


def alignment_start_from_raw(bam):
    """The first reference position, counted from 1; None where the record has none."""
    return _found(C.cigar_alignment_start_from_raw(*_record(bam)))


def alignment_end_from_raw(bam):
    """The last reference position, counted from 1; None where the record has none."""
    return _found(C.cigar_alignment_end_from_raw(*_record(bam)))


def read_pos_at_ref_pos_raw(ops, alignment_start, ref_pos, return_last_base_if_deleted):
    """The query position, counted from 1, at a reference position, None where there is none; and how many ops were examined for it."""
    return _lookup(C.cigar_read_pos_at_ref_pos_raw(*_ops(ops), _u64(alignment_start), _u64(ref_pos), bool(return_last_base_if_deleted)))


# ---- clipping


def clip_cigar_start_raw(ops, clip_amount):
    """The list clipped at the start, and the reference bases lost."""
    return _cut(C.cigar_clip_cigar_start_raw, *_ops(ops), _u64(clip_amount))


def clip_cigar_end_raw(ops, clip_amount):
    """The list clipped at the end."""
    return _list(C.cigar_clip_cigar_end_raw, *_ops(ops), _u64(clip_amount))


def clip_cigar_start(bam, clip_amount):
    """A record's ops clipped at the start, and the reference bases lost."""
    return _cut(C.cigar_clip_cigar_start, *_record(bam), _u64(clip_amount))


def clip_cigar_end(bam, clip_amount):
    """A record's ops clipped at the end."""
    return _list(C.cigar_clip_cigar_end, *_record(bam), _u64(clip_amount))


def clip_cigar_end(bam, clip_amount):
    """A record's ops clipped at the end."""
    answer, out = _filled(C.cigar_clip_cigar_end, *_record(bam), _u64(clip_amount))
    return out[:answer.value]


# ---- blocks


def bed_blocks(start, ops):
    """The blocks of an alignment, by its start, counted from 0, and its ops: where it starts and ends in its reference, the blocks' sizes, a list, and where they start, counted from
    its start, a list."""
    answer, sizes, starts = _filled(C.cigar_bed_blocks, _i32(start), *_ops(ops), outputs=2)
    return answer.chrom_start, answer.chrom_end, sizes[:answer.block_count], starts[:answer.block_count]


# ---- matches told apart from MD


def match_ops_from_md(ops, md):
    """The ops with each M as the runs of = and X that an MD text (bytes or str) tells."""
    answer, out = _filled(C.cigar_match_ops_from_md, *_ops(ops), *_text(md))
    return out[:answer.value]


# ---- pairs


def is_mapped_opposite_strand_pair_raw(bam):
    """Whether the record and its mate are mapped on one reference, on opposite strands."""
    return _value(C.cigar_is_mapped_opposite_strand_pair_raw(*_record(bam)))


def is_fr_pair_raw(bam):
    """Whether the record and its mate are an FR pair, by the record alone."""
    return _value(C.cigar_is_fr_pair_raw(*_record(bam)))


def is_primary_fr_pair_raw(a, b):
    """Whether a record and its mate's are a primary FR pair."""
    return _value(C.cigar_is_primary_fr_pair_raw(*_record(a), *_record(b)))


def bases_extending_past_mate_ops(is_reverse, this_pos_1based, this_ops, mate_pos_1based, mate_ops):
    """The query bases past the mate, of two lists; positions are counted from 1."""
    return _value(C.cigar_bases_extending_past_mate_ops(bool(is_reverse), _i32(this_pos_1based), *_ops(this_ops), _i32(mate_pos_1based), *_ops(mate_ops)))


def num_bases_extending_past_mate_cigar_raw(bam, mate_ops):
    """The query bases past the mate, whose ops are given."""
    return _value(C.cigar_num_bases_extending_past_mate_cigar_raw(*_record(bam), *_ops(mate_ops)))


def num_bases_extending_past_mate_vs_mate_raw(rec, mate):
    """The query bases past the mate, whose record is given."""
    return _value(C.cigar_num_bases_extending_past_mate_vs_mate_raw(*_record(rec), *_record(mate)))


def num_bases_extending_past_mate_text_raw(bam, mate_text):
    """The query bases past the mate, whose ops are given as text, and those ops, a list."""
    answer, out = _filled(C.cigar_num_bases_extending_past_mate_text_raw, *_record(bam), *_text(mate_text))
    return answer.first, out[:answer.second]


# ---- long op lists: a record's true list stands in its tag CG, where its own ops are a placeholder; without placeholder or CG its own ops are the list


def true_cigar_raw_bytes(bam):
    """The part of the record that holds its true list, as bytes."""
    return _part(C.cigar_true_cigar_raw_bytes, bam)


def true_cigar_ops(bam):
    """The ops of the true list, a list."""
    return _list(C.cigar_true_cigar_ops, *_record(bam))


def true_cigar_lengths(bam):
    """The lengths of the true list, as `cigar_lengths` has them."""
    return _lengths(C.cigar_true_cigar_lengths(*_record(bam)))


def true_cigar_to_bytes_into(bam):
    """The true list as text, in bytes."""
    answer, out = _filled(C.cigar_true_cigar_to_bytes_into, *_record(bam), kind=c_uint8)
    return bytes(out[:answer.value])


def true_unclipped_5prime_from_raw_bam(bam):
    """The record's unclipped 5' position by its true list, as `unclipped_5prime_from_raw_bam` has it by its own ops; an unmapped record is told before the list is looked for."""
    return _unclipped(C.cigar_true_unclipped_5prime_from_raw_bam(*_record(bam)))


def true_clip_cigar_start(bam, clip_amount):
    """The true list clipped at the start, and the reference bases lost."""
    return _cut(C.cigar_true_clip_cigar_start, *_record(bam), _u64(clip_amount))


def true_clip_cigar_end(bam, clip_amount):
    """The true list clipped at the end."""
    return _list(C.cigar_true_clip_cigar_end, *_record(bam), _u64(clip_amount))


def long_reference_length_from_cigar(ops):
    """The reference length of a list of up to 1,048,576 ops."""
    return _value(C.cigar_long_reference_length_from_cigar(*_ops(ops)))


def long_query_length_from_cigar(ops):
    """The query length of a list of up to 1,048,576 ops."""
    return _value(C.cigar_long_query_length_from_cigar(*_ops(ops)))


def long_read_pos_at_ref_pos_raw(ops, alignment_start, ref_pos, return_last_base_if_deleted):
    """`read_pos_at_ref_pos_raw` of a list of up to 1,048,576 ops."""
    return _lookup(C.cigar_long_read_pos_at_ref_pos_raw(*_ops(ops), _u64(alignment_start), _u64(ref_pos), bool(return_last_base_if_deleted)))


def long_clip_cigar_start_raw(ops, clip_amount):
    """`clip_cigar_start_raw` of a list of up to 1,048,576 ops."""
    return _cut(C.cigar_long_clip_cigar_start_raw, *_ops(ops), _u64(clip_amount))


def long_clip_cigar_end_raw(ops, clip_amount):
    """`clip_cigar_end_raw` of a list of up to 1,048,576 ops."""
    return _list(C.cigar_long_clip_cigar_end_raw, *_ops(ops), _u64(clip_amount))


# ---- clipped records


def clip_record_start(bam, clip_amount):
    """The record clipped at the start, as bytes, and the reference bases lost."""
    data, n = _record(bam)
    answer, out = _filled(C.cigar_clip_record_start, data, n, _u64(clip_amount), kind=c_uint8, places=n + 4)
    return bytes(memoryview(out)[:answer.first]), answer.second


def clip_record_end(bam, clip_amount):
    """The record clipped at the end, as bytes."""
    data, n = _record(bam)
    answer, out = _filled(C.cigar_clip_record_end, data, n, _u64(clip_amount), kind=c_uint8, places=n + 4)
    return bytes(memoryview(out)[:answer.value])


# ---- the receiving check


def check_clipped_start(bam, clip_amount, received):
    """Whether a received record is the one that was sent, clipped at the start: ACCEPTED, or its first part that differs."""
    return CHECKED[_value(C.cigar_check_clipped_start(*_record(bam), _u64(clip_amount), *_record(received)))]


def check_clipped_end(bam, clip_amount, received):
    """Whether a received record is the one that was sent, clipped at the end: ACCEPTED, or its first part that differs."""
    return CHECKED[_value(C.cigar_check_clipped_end(*_record(bam), _u64(clip_amount), *_record(received)))]
