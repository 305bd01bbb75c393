// The structs and the C calls of include/cigar.h, one to one. tests/run.d/signatures holds them to the header and to the Rattle source.
#[repr(C)]
pub struct Int {
    pub refusal: u32,
    pub value: i32,
}

#[repr(C)]
pub struct Count {
    pub refusal: u32,
    pub value: u64,
}

#[repr(C)]
pub struct Flag {
    pub refusal: u32,
    pub value: bool,
}

#[repr(C)]
pub struct Found {
    pub refusal: u32,
    pub found: bool,
    pub value: u64,
}

#[repr(C)]
pub struct Lookup {
    pub refusal: u16,
    pub found: bool,
    pub examined: u32,
    pub value: u64,
}

#[repr(C)]
pub struct Position {
    pub refusal: u32,
    pub which: u32,
    pub value: i32,
}

#[repr(C)]
pub struct Two {
    pub refusal: u32,
    pub first: u64,
    pub second: u64,
}

#[repr(C)]
pub struct Lengths {
    pub refusal: u32,
    pub reference: i32,
    pub query: u64,
    pub leading_soft: u64,
    pub leading_hard: u64,
    pub trailing_soft: u64,
    pub trailing_hard: u64,
}

#[repr(C)]
pub struct Blocks {
    pub refusal: u32,
    pub chrom_start: u32,
    pub chrom_end: u32,
    pub block_count: u32,
}

extern "C" {
    pub fn cigar_ref_id(rec: *const u8, rec_len: usize) -> Int;
    pub fn cigar_pos(rec: *const u8, rec_len: usize) -> Int;
    pub fn cigar_l_read_name(rec: *const u8, rec_len: usize) -> Count;
    pub fn cigar_bin(rec: *const u8, rec_len: usize) -> Count;
    pub fn cigar_n_cigar_op(rec: *const u8, rec_len: usize) -> Count;
    pub fn cigar_flags(rec: *const u8, rec_len: usize) -> Count;
    pub fn cigar_l_seq(rec: *const u8, rec_len: usize) -> Count;
    pub fn cigar_mate_ref_id(rec: *const u8, rec_len: usize) -> Int;
    pub fn cigar_mate_pos(rec: *const u8, rec_len: usize) -> Int;
    pub fn cigar_template_length(rec: *const u8, rec_len: usize) -> Int;
    pub fn cigar_cigar_raw_bytes(rec: *const u8, rec_len: usize) -> Two;
    pub fn cigar_get_cigar_ops(rec: *const u8, rec_len: usize, out: *mut u32, out_len: usize) -> Count;
    pub fn cigar_consumes_ref(code: u32) -> bool;
    pub fn cigar_consumes_query(code: u32) -> bool;
    pub fn cigar_consumes_read(code: u32) -> bool;
    pub fn cigar_from_op_type(code: u32) -> Found;
    pub fn cigar_as_char(kind: u32) -> Found;
    pub fn cigar_op_new(kind: u32, length: u32) -> Found;
    pub fn cigar_op_kind(op: u32) -> u32;
    pub fn cigar_op_len(op: u32) -> u32;
    pub fn cigar_op_consumes_query(op: u32) -> bool;
    pub fn cigar_op_consumes_ref(op: u32) -> bool;
    pub fn cigar_reference_length_from_cigar(ops: *const u32, ops_len: usize) -> Int;
    pub fn cigar_query_length_from_cigar(ops: *const u32, ops_len: usize) -> Count;
    pub fn cigar_saturating_reference_length(ops: *const u32, ops_len: usize) -> Int;
    pub fn cigar_reference_length_from_raw_bam(rec: *const u8, rec_len: usize) -> Int;
    pub fn cigar_reference_length_from_raw_bam_checked(rec: *const u8, rec_len: usize) -> Int;
    pub fn cigar_query_length(rec: *const u8, rec_len: usize) -> Count;
    pub fn cigar_cigar_lengths(rec: *const u8, rec_len: usize) -> Lengths;
    pub fn cigar_reg2bin(beg: i32, end: i32) -> Count;
    pub fn cigar_bin_from_raw_bam(rec: *const u8, rec_len: usize) -> Count;
    pub fn cigar_set_bin_from_raw_bam(rec: *mut u8, rec_len: usize) -> Count;
    pub fn cigar_csi_reg2bin(beg: i64, end: i64, min_shift: u32, depth: u32) -> Count;
    pub fn cigar_csi_reg2bins(beg: i64, end: i64, min_shift: u32, depth: u32, out: *mut u32, out_len: usize) -> Count;
    pub fn cigar_cigar_to_bytes_into(rec: *const u8, rec_len: usize, out: *mut u8, out_len: usize) -> Count;
    pub fn cigar_parse_cigar_string_ops(text: *const u8, text_len: usize, out: *mut u32, out_len: usize) -> Count;
    pub fn cigar_is_valid_mapped_cigar(ops: *const u32, ops_len: usize) -> Flag;
    pub fn cigar_mate_unclipped_5prime(position: i32, reverse: u8, text: *const u8, text_len: usize) -> i32;
    pub fn cigar_mate_unclipped_5prime_1based(position: i32, reverse: u8, text: *const u8, text_len: usize) -> i32;
    pub fn cigar_unclipped_5prime_from_raw_bam(rec: *const u8, rec_len: usize) -> Position;
    pub fn cigar_unclipped_5prime_raw(rec: *const u8, rec_len: usize, position: i32, reverse: u8) -> Int;
    pub fn cigar_alignment_start_from_raw(rec: *const u8, rec_len: usize) -> Found;
    pub fn cigar_alignment_end_from_raw(rec: *const u8, rec_len: usize) -> Found;
    pub fn cigar_read_pos_at_ref_pos_raw(ops: *const u32, ops_len: usize, start: u64, position: u64, last_base_if_deleted: u8) -> Lookup;
    pub fn cigar_clip_cigar_start_raw(ops: *const u32, ops_len: usize, amount: u64, out: *mut u32, out_len: usize) -> Two;
    pub fn cigar_clip_cigar_end_raw(ops: *const u32, ops_len: usize, amount: u64, out: *mut u32, out_len: usize) -> Count;
    pub fn cigar_clip_cigar_start(rec: *const u8, rec_len: usize, amount: u64, out: *mut u32, out_len: usize) -> Two;
    pub fn cigar_clip_cigar_end(rec: *const u8, rec_len: usize, amount: u64, out: *mut u32, out_len: usize) -> Count;
    pub fn cigar_bed_blocks(start: i32, ops: *const u32, ops_len: usize, sizes: *mut u32, sizes_len: usize, starts: *mut u32, starts_len: usize) -> Blocks;
    pub fn cigar_match_ops_from_md(ops: *const u32, ops_len: usize, text: *const u8, text_len: usize, out: *mut u32, out_len: usize) -> Count;
    pub fn cigar_is_mapped_opposite_strand_pair_raw(rec: *const u8, rec_len: usize) -> Flag;
    pub fn cigar_is_fr_pair_raw(rec: *const u8, rec_len: usize) -> Flag;
    pub fn cigar_is_primary_fr_pair_raw(rec: *const u8, rec_len: usize, mate: *const u8, mate_len: usize) -> Flag;
    pub fn cigar_bases_extending_past_mate_ops(reverse: u8, position: i32, ops: *const u32, ops_len: usize, mate_position: i32, mate_ops: *const u32, mate_ops_len: usize) -> Count;
    pub fn cigar_num_bases_extending_past_mate_cigar_raw(rec: *const u8, rec_len: usize, mate_ops: *const u32, mate_ops_len: usize) -> Count;
    pub fn cigar_num_bases_extending_past_mate_vs_mate_raw(rec: *const u8, rec_len: usize, mate: *const u8, mate_len: usize) -> Count;
    pub fn cigar_num_bases_extending_past_mate_text_raw(rec: *const u8, rec_len: usize, text: *const u8, text_len: usize, out: *mut u32, out_len: usize) -> Two;
    pub fn cigar_true_cigar_raw_bytes(rec: *const u8, rec_len: usize) -> Two;
    pub fn cigar_true_cigar_ops(rec: *const u8, rec_len: usize, out: *mut u32, out_len: usize) -> Count;
    pub fn cigar_true_cigar_lengths(rec: *const u8, rec_len: usize) -> Lengths;
    pub fn cigar_true_cigar_to_bytes_into(rec: *const u8, rec_len: usize, out: *mut u8, out_len: usize) -> Count;
    pub fn cigar_true_unclipped_5prime_from_raw_bam(rec: *const u8, rec_len: usize) -> Position;
    pub fn cigar_true_clip_cigar_start(rec: *const u8, rec_len: usize, amount: u64, out: *mut u32, out_len: usize) -> Two;
    pub fn cigar_true_clip_cigar_end(rec: *const u8, rec_len: usize, amount: u64, out: *mut u32, out_len: usize) -> Count;
    pub fn cigar_long_reference_length_from_cigar(ops: *const u32, ops_len: usize) -> Int;
    pub fn cigar_long_query_length_from_cigar(ops: *const u32, ops_len: usize) -> Count;
    pub fn cigar_long_read_pos_at_ref_pos_raw(ops: *const u32, ops_len: usize, start: u64, position: u64, last_base_if_deleted: u8) -> Lookup;
    pub fn cigar_long_clip_cigar_start_raw(ops: *const u32, ops_len: usize, amount: u64, out: *mut u32, out_len: usize) -> Two;
    pub fn cigar_long_clip_cigar_end_raw(ops: *const u32, ops_len: usize, amount: u64, out: *mut u32, out_len: usize) -> Count;
    pub fn cigar_clip_record_start(rec: *const u8, rec_len: usize, amount: u64, out: *mut u8, out_len: usize) -> Two;
    pub fn cigar_clip_record_end(rec: *const u8, rec_len: usize, amount: u64, out: *mut u8, out_len: usize) -> Count;
    pub fn cigar_check_clipped_start(rec: *const u8, rec_len: usize, amount: u64, received: *const u8, received_len: usize) -> Count;
    pub fn cigar_check_clipped_end(rec: *const u8, rec_len: usize, amount: u64, received: *const u8, received_len: usize) -> Count;
}
