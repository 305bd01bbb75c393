/* CIGAR arithmetic over BAM records, op lists and text: the proved calls, for C.
 *
 * A call that can refuse returns a struct: its `refusal` is 0, or the number of the refusal, and then every other field is 0 (false).
 *    1 a record has under 32 bytes            6 the answer is longer than a lent output
 *    2 the op area ends past the record       7 printing met a code 9 to 15
 *    3 a list has too many ops: over 65,535   8 clipping: total length 2^28 or more
 *      (long lists: over 1,048,576)           9 lookup: start outside 1 to 2^31
 *    4 a signed 32-bit sum overflows         10 op_new: length 0 or above 268,435,455
 *    5 the text is no valid mapped CIGAR        (2 also: clipping a record that ends before its last quality)
 *   12 behind a placeholder: bases, qualities or tags up to the first CG overrun the record, or a tag among these has no known type
 *   13 the tag CG is no array of unsigned 32-bit numbers (B of I)
 *   14 a start below 0, no block, or an N before the first or after the last block
 *   15 clipping a record: its query length is not its l_seq, which is not 0
 *   16 clipping a record: over 65,535 ops would be left
 *   17 CSI: min_shift or depth out of range 18 CSI: not 0 <= beg < end <= 2^(min_shift + 3 * depth)
 *   19 clipping: the amount is beyond what can be clipped
 *   20 the text is no MD                    21 MD: the list holds = or X already    22 MD and the list disagree
 *   23 a received record has under 32 bytes 24 a received record ends before its last quality
 * A call that cannot refuse returns its value.
 *
 * A buffer is a pointer and the number of its elements: `rec` and `mate` are BAM records (the bytes behind block_size), `ops` and
 * `mate_ops` lists of ops as a record holds them (length * 16 + code), `text` a CIGAR or MD as text. The pointer must be valid for that many
 * elements and aligned; it may be NULL where the number is 0. Any bytes, ops and numbers may stand in a buffer.
 * A lent output `out`, `sizes` or `starts` keeps its content where the call refuses; an answer fills its first places, and those after them keep theirs.
 * What an output that overlaps another buffer of the same call does is not promised.
 *
 * A flag as an argument is a byte: anything but 0 counts as 1. Positions are counted as each call says.
 *
 * The calls are in four archives, each said above its calls: link the ones that you need. libselvedgekite.so has all of them.
 * Of the C library libexports_reads.a needs memset, and nothing else: who links without a C library has to have a memset, as every C compiler asks for.
 */
#ifndef CIGAR_H
#define CIGAR_H

#include <stdbool.h>
#include <stddef.h>
#include <stdint.h>

#ifdef __cplusplus
extern "C" {
#endif

/* A signed number */
struct cigar_int { uint32_t refusal; int32_t value; };
/* A number that is never negative: a field, a bin, a count */
struct cigar_count { uint32_t refusal; uint64_t value; };
/* Yes or no */
struct cigar_flag { uint32_t refusal; bool value; };
/* None, where `found` is false, or a number that is never negative */
struct cigar_found { uint32_t refusal; bool found; uint64_t value; };
/* What lookup found, none where `found` is false, and how many ops it examined: 16 bytes, for registers, so the refusal has 16 bits here */
struct cigar_lookup { uint16_t refusal; bool found; uint32_t examined; uint64_t value; };
/* A position, `value`, where `which` is 0; else there is none, and `value` is 0: `which` is 1 for an unmapped record, 2 for one without ops */
struct cigar_position { uint32_t refusal; uint32_t which; int32_t value; };
/* Two numbers that are never negative; each call says which */
struct cigar_two { uint32_t refusal; uint64_t first; uint64_t second; };
/* Reference and query length, and the soft and hard bases of the run of clips at each end */
struct cigar_lengths { uint32_t refusal; int32_t reference; uint64_t query; uint64_t leading_soft; uint64_t leading_hard; uint64_t trailing_soft; uint64_t trailing_hard; };
/* Where an alignment starts and ends in its reference, counted from 0, the end not included, and how many blocks it has: 16 bytes, for registers */
struct cigar_blocks { uint32_t refusal; uint32_t chrom_start; uint32_t chrom_end; uint32_t block_count; };

/* ======== libexports.a ======== */

/* ---- fields of a record, as they stand there. Refusal 1 */

/* the reference's number, -1 for none */
struct cigar_int cigar_ref_id(const uint8_t *rec, size_t rec_len);
/* the position, counted from 0 */
struct cigar_int cigar_pos(const uint8_t *rec, size_t rec_len);
/* the length of the name, its NUL included */
struct cigar_count cigar_l_read_name(const uint8_t *rec, size_t rec_len);
/* the bin that the record holds */
struct cigar_count cigar_bin(const uint8_t *rec, size_t rec_len);
/* the number of ops */
struct cigar_count cigar_n_cigar_op(const uint8_t *rec, size_t rec_len);
/* the flags */
struct cigar_count cigar_flags(const uint8_t *rec, size_t rec_len);
/* the length of the sequence */
struct cigar_count cigar_l_seq(const uint8_t *rec, size_t rec_len);
/* the mate's reference, -1 for none */
struct cigar_int cigar_mate_ref_id(const uint8_t *rec, size_t rec_len);
/* the mate's position, counted from 0 */
struct cigar_int cigar_mate_pos(const uint8_t *rec, size_t rec_len);
/* the template's length */
struct cigar_int cigar_template_length(const uint8_t *rec, size_t rec_len);

/* The part of the record that holds its ops: `first` its offset, `second` its length in bytes; 0 and 0 where the area overruns. Refusal 1 */
struct cigar_two cigar_cigar_raw_bytes(const uint8_t *rec, size_t rec_len);

/* ---- ops */

/* The record's ops into out: how many. Refusals 1, 6 */
struct cigar_count cigar_get_cigar_ops(const uint8_t *rec, size_t rec_len, uint32_t *out, size_t out_len);

/* Whether an op of this code takes reference bases, or query bases; of an op's number the code, since it is taken modulo 16 */
bool cigar_consumes_ref(uint32_t code);
bool cigar_consumes_query(uint32_t code);
/* Whether a code, taken whole, takes bases of the read: M, I, = and X */
bool cigar_consumes_read(uint32_t code);

/* The kind, 0 to 8, of a code that is taken whole; none above 8 */
struct cigar_found cigar_from_op_type(uint32_t code);
/* The letter's byte; none for a kind above 8 */
struct cigar_found cigar_as_char(uint32_t kind);
/* The op's number; none for a kind above 8. Refusal 10 */
struct cigar_found cigar_op_new(uint32_t kind, uint32_t length);
/* The kind of an op, 0 to 8; codes 9 to 15 are told as 6, a pad */
uint32_t cigar_op_kind(uint32_t op);
/* The length of an op */
uint32_t cigar_op_len(uint32_t op);
/* Whether an op takes query bases, or reference bases */
bool cigar_op_consumes_query(uint32_t op);
bool cigar_op_consumes_ref(uint32_t op);

/* ---- lengths */

/* The reference length of a list. Refusals 3, 4 */
struct cigar_int cigar_reference_length_from_cigar(const uint32_t *ops, size_t ops_len);
/* The query length of a list. Refusal 3 */
struct cigar_count cigar_query_length_from_cigar(const uint32_t *ops, size_t ops_len);
/* The reference length of a list, 2^31 - 1 at most. Refusal 3 */
struct cigar_int cigar_saturating_reference_length(const uint32_t *ops, size_t ops_len);
/* The reference length of a record; both calls are the same. Refusals 1, 2, 4 */
struct cigar_int cigar_reference_length_from_raw_bam(const uint8_t *rec, size_t rec_len);
struct cigar_int cigar_reference_length_from_raw_bam_checked(const uint8_t *rec, size_t rec_len);
/* The query length of a record. Refusal 1 */
struct cigar_count cigar_query_length(const uint8_t *rec, size_t rec_len);
/* Both lengths of a record, and the run of S and H (any order) at each end: its soft and its hard bases. Of clips only, all are leading. Refusals 1, 4 */
struct cigar_lengths cigar_cigar_lengths(const uint8_t *rec, size_t rec_len);

/* ---- bins */

/* The bin of the region from beg to end, counted from 0, end not included. Refusal 4 */
struct cigar_count cigar_reg2bin(int32_t beg, int32_t end);
/* The bin of a record; 4680 where its position is below 0, whatever its ops. Refusals 1, 2, 4 */
struct cigar_count cigar_bin_from_raw_bam(const uint8_t *rec, size_t rec_len);
/* The same, and written to bytes 10 and 11 of the record, which keeps its content where the call refuses. Refusals 1, 2, 4 */
struct cigar_count cigar_set_bin_from_raw_bam(uint8_t *rec, size_t rec_len);
/* The CSI bin of the region from beg to end, counted from 0, end not included: the smallest that holds it. min_shift is 10 to 20, depth 1 to 8; with 14 and 5 it is
 * cigar_reg2bin's. Refusals 17, 18 */
struct cigar_count cigar_csi_reg2bin(int64_t beg, int64_t end, uint32_t min_shift, uint32_t depth);
/* All CSI bins that may overlap the region into out, level by level from the coarsest, ascending: how many. Refusals 17, 18, 6 */
struct cigar_count cigar_csi_reg2bins(int64_t beg, int64_t end, uint32_t min_shift, uint32_t depth, uint32_t *out, size_t out_len);

/* ======== libexports_reads.a ======== */

/* ---- text */

/* The record's CIGAR as text into out: how many bytes. Refusals 1, 7, 6 */
struct cigar_count cigar_cigar_to_bytes_into(const uint8_t *rec, size_t rec_len, uint8_t *out, size_t out_len);
/* The text's ops into out: how many. Refusals 5, 3, 6 */
struct cigar_count cigar_parse_cigar_string_ops(const uint8_t *text, size_t text_len, uint32_t *out, size_t out_len);
/* Whether a list is a valid mapped CIGAR. Refusal 3 */
struct cigar_flag cigar_is_valid_mapped_cigar(const uint32_t *ops, size_t ops_len);
/* The mate's unclipped 5' position by its text, counted as the given one is */
int32_t cigar_mate_unclipped_5prime(int32_t position, uint8_t reverse, const uint8_t *text, size_t text_len);
/* The same of a position counted from 0, counted from 1 */
int32_t cigar_mate_unclipped_5prime_1based(int32_t position, uint8_t reverse, const uint8_t *text, size_t text_len);

/* ---- ends */

/* The unclipped 5' position, counted from 1; or that the record is unmapped, which is asked first, or that it has no ops or they overrun it. Refusals 1, 4 */
struct cigar_position cigar_unclipped_5prime_from_raw_bam(const uint8_t *rec, size_t rec_len);
/* The position from a given one and a strand, counted as the given one is, which a record without ops answers. Refusals 1, 4 */
struct cigar_int cigar_unclipped_5prime_raw(const uint8_t *rec, size_t rec_len, int32_t position, uint8_t reverse);
/* The first reference position, counted from 1; none where the record has none. Refusals 1, 4 */
struct cigar_found cigar_alignment_start_from_raw(const uint8_t *rec, size_t rec_len);
/* The last one. Refusals 1, 2, 4 */
struct cigar_found cigar_alignment_end_from_raw(const uint8_t *rec, size_t rec_len);

/* ---- lookup: none or the query position, counted from 1, at a reference position; both count from 1. Beside either the ops examined: the place, counted
 * from 1, of the op that holds the position (a D or N too), the number of ops if none does, 0 before the start. Refusals 3, 9 */
struct cigar_lookup cigar_read_pos_at_ref_pos_raw(const uint32_t *ops, size_t ops_len, uint64_t start, uint64_t position, uint8_t last_base_if_deleted);

/* ---- clipping: the clipped list into out. At the start `first` is the ops written and `second` the reference bases lost, at the end the value is the ops written.
 * What can be clipped is the run of S and H at that end plus the M, I, = and X bases of the list; of an empty list any amount changes nothing */

/* Of a list. Refusals 3, 8, 19, 6 */
struct cigar_two cigar_clip_cigar_start_raw(const uint32_t *ops, size_t ops_len, uint64_t amount, uint32_t *out, size_t out_len);
struct cigar_count cigar_clip_cigar_end_raw(const uint32_t *ops, size_t ops_len, uint64_t amount, uint32_t *out, size_t out_len);
/* Of a record; an area that overruns is an empty list. Refusals 1, 8, 19, 6 */
struct cigar_two cigar_clip_cigar_start(const uint8_t *rec, size_t rec_len, uint64_t amount, uint32_t *out, size_t out_len);
struct cigar_count cigar_clip_cigar_end(const uint8_t *rec, size_t rec_len, uint64_t amount, uint32_t *out, size_t out_len);

/* ---- blocks: what stands between two N's, or an N and an end of the list, by its reference bases, if it has any; a D stays within its block */

/* The blocks of an alignment that starts at `start`, counted from 0: their sizes, and where they start, counted from that start, into the first places of the
 * two outputs. Refusals 3, 14, 4 (the end passes 2^31 - 1), 6 (either output has fewer places than there are blocks) */
struct cigar_blocks cigar_bed_blocks(int32_t start, const uint32_t *ops, size_t ops_len, uint32_t *sizes, size_t sizes_len, uint32_t *starts, size_t starts_len);

/* ---- matches told apart from MD */

/* The ops with each M as the runs of = and X that an MD text tells (SAM optional fields: numbers alternating with letters, or ^ and letters), into the first places of out.
 * Refusals 3, 20, 21, 22, 6 */
struct cigar_count cigar_match_ops_from_md(const uint32_t *ops, size_t ops_len, const uint8_t *text, size_t text_len, uint32_t *out, size_t out_len);

/* ---- pair tests. A reverse record is asked for its length, unless its flags, references or strands already fail */

/* Paired, both mapped, on the same reference, on opposite strands. Refusal 1 */
struct cigar_flag cigar_is_mapped_opposite_strand_pair_raw(const uint8_t *rec, size_t rec_len);
/* Such a pair that faces inward: of a reverse record its mate starts at or before its end, of a forward one the template length is at least 1. Refusals 1, 2, 4 */
struct cigar_flag cigar_is_fr_pair_raw(const uint8_t *rec, size_t rec_len);
/* The same of two records, by the reverse one. Refusals 1, 2, 4 */
struct cigar_flag cigar_is_primary_fr_pair_raw(const uint8_t *rec, size_t rec_len, const uint8_t *mate, size_t mate_len);

/* ---- overhang: the query bases past the mate */

/* Of two lists; positions are counted from 1. Refusal 3 */
struct cigar_count cigar_bases_extending_past_mate_ops(uint8_t reverse, int32_t position, const uint32_t *ops, size_t ops_len, int32_t mate_position, const uint32_t *mate_ops, size_t mate_ops_len);
/* Of a record and its mate's list. Refusals 1, 3, 2, 4 */
struct cigar_count cigar_num_bases_extending_past_mate_cigar_raw(const uint8_t *rec, size_t rec_len, const uint32_t *mate_ops, size_t mate_ops_len);
/* Of a record and its mate's. Refusals 1, 2, 4 */
struct cigar_count cigar_num_bases_extending_past_mate_vs_mate_raw(const uint8_t *rec, size_t rec_len, const uint8_t *mate, size_t mate_len);
/* The mate's ops from text into out: `first` the overhang, `second` the ops written; text that the strict reader refuses by 5 answers 0 and 0 and writes
 * nothing. Refusals 1, 3, 2, 4, 6 */
struct cigar_two cigar_num_bases_extending_past_mate_text_raw(const uint8_t *rec, size_t rec_len, const uint8_t *text, size_t text_len, uint32_t *out, size_t out_len);

/* ======== libexports_long.a ======== */

/* ---- a record's true op list. A record of over 65,535 ops holds a placeholder, an S as long as its sequence and an N, and the list in its tag CG, as a B array of
 * type I: there the first CG counts. Without placeholder or CG the record's own ops are the list. Lists have at most 1,048,576 ops.
 * The calls of the other archives read the two ops of a placeholder as they stand */

/* The part of the record that holds the list: `first` its offset, `second` its length in bytes. Refusals 1, 2, 12, 13, 3 */
struct cigar_two cigar_true_cigar_raw_bytes(const uint8_t *rec, size_t rec_len);
/* Its ops into out: how many. Refusals 1, 2, 12, 13, 3, 6 */
struct cigar_count cigar_true_cigar_ops(const uint8_t *rec, size_t rec_len, uint32_t *out, size_t out_len);
/* Its lengths, as cigar_cigar_lengths has them. Refusals 1, 2, 12, 13, 3, 4 */
struct cigar_lengths cigar_true_cigar_lengths(const uint8_t *rec, size_t rec_len);
/* Its text into out: how many bytes. Refusals 1, 2, 12, 13, 3, 7, 6 */
struct cigar_count cigar_true_cigar_to_bytes_into(const uint8_t *rec, size_t rec_len, uint8_t *out, size_t out_len);
/* The record's unclipped 5' position by it, as cigar_unclipped_5prime_from_raw_bam has it by its own ops: an unmapped record is told before anything else is read.
 * Refusals 1, 2, 12, 13, 3, 4 */
struct cigar_position cigar_true_unclipped_5prime_from_raw_bam(const uint8_t *rec, size_t rec_len);
/* It clipped at the start and at the end, as cigar_clip_cigar_start and _end clip the record's own ops. The clipped list may be lent to the calls for long lists.
 * Refusals 1, 2, 12, 13, 3, 8, 19, 6 */
struct cigar_two cigar_true_clip_cigar_start(const uint8_t *rec, size_t rec_len, uint64_t amount, uint32_t *out, size_t out_len);
struct cigar_count cigar_true_clip_cigar_end(const uint8_t *rec, size_t rec_len, uint64_t amount, uint32_t *out, size_t out_len);

/* ---- long lists: the calls without `long`, of up to 1,048,576 ops */

/* The reference length of a list. Refusals 3, 4 */
struct cigar_int cigar_long_reference_length_from_cigar(const uint32_t *ops, size_t ops_len);
/* The query length of a list. Refusal 3 */
struct cigar_count cigar_long_query_length_from_cigar(const uint32_t *ops, size_t ops_len);
/* Lookup. Refusals 3, 9 */
struct cigar_lookup cigar_long_read_pos_at_ref_pos_raw(const uint32_t *ops, size_t ops_len, uint64_t start, uint64_t position, uint8_t last_base_if_deleted);
/* Clipping. Refusals 3, 8, 19, 6 */
struct cigar_two cigar_long_clip_cigar_start_raw(const uint32_t *ops, size_t ops_len, uint64_t amount, uint32_t *out, size_t out_len);
struct cigar_count cigar_long_clip_cigar_end_raw(const uint32_t *ops, size_t ops_len, uint64_t amount, uint32_t *out, size_t out_len);

/* ======== libexports_records.a ======== */

/* ---- clipped records: the whole record into out, with its ops clipped, its position moved by the reference bases lost at the start, its bin computed, and the bases
 * and qualities removed that the ops lost; all else stays. Here a record that ends before its last quality is refused by 2, too */

/* At the start: `first` is the bytes written and `second` the reference bases lost. Refusals 1, 2, 8, 19, 15, 16, 4, 6 */
struct cigar_two cigar_clip_record_start(const uint8_t *rec, size_t rec_len, uint64_t amount, uint8_t *out, size_t out_len);
/* At the end: the bytes written. Refusals 1, 2, 8, 19, 15, 16, 4, 6 */
struct cigar_count cigar_clip_record_end(const uint8_t *rec, size_t rec_len, uint64_t amount, uint8_t *out, size_t out_len);

/* ---- the receiving check: whether `received` is what clipping the record `rec`, which was sent, writes, byte for byte, apart from the two bytes of the bin, which
 * may both be 0. 0 is accepted; else the first part that differs: 1 the 32 bytes of header, 2 the name, 3 the ops, 4 the bases, 5 the qualities, 6 the tags to the
 * record's end. What the sent record is refused for comes first */

/* Clipped at the start. Refusals 1, 2, 8, 19, 15, 16, 4, 23, 24 */
struct cigar_count cigar_check_clipped_start(const uint8_t *rec, size_t rec_len, uint64_t amount, const uint8_t *received, size_t received_len);
/* Clipped at the end. Refusals 1, 2, 8, 19, 15, 16, 4, 23, 24 */
struct cigar_count cigar_check_clipped_end(const uint8_t *rec, size_t rec_len, uint64_t amount, const uint8_t *received, size_t received_len);

#ifdef __cplusplus
}
#endif

#endif
