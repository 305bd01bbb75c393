// Clips 26 bases at the start of 5S20M2D5M.
fn main() {
    let mut ops = [0u32; 8];
    let n = selvedgekite::parse_cigar_string_ops(b"5S20M2D5M", &mut ops).unwrap();
    let mut out = [0u32; 8];
    let (written, lost) = selvedgekite::clip_cigar_start_raw(&ops[..n], 26, &mut out).unwrap();
    for op in &out[..written] {
        let op = selvedgekite::CigarOp::from_raw(*op);
        print!("{}{}", op.len(), op.kind().as_char());
    }
    println!(" {lost}");
}
