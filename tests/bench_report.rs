// The lines of the report, printed with the original's functions: what the proved program is timed beside. For whole streams of records that nothing refuses.
use original::{bin, cigar, fields::RawRecordView};
use std::io::{BufReader, BufWriter, Read, Result, Write};

fn main() -> Result<()> {
    let mut input = BufReader::with_capacity(65536, std::io::stdin().lock());
    let mut out = BufWriter::with_capacity(65536, std::io::stdout().lock());
    let (mut mark, mut size, mut record, mut text) = ([0; 5], [0; 4], Vec::new(), Vec::new());
    input.read_exact(&mut mark)?;
    let mut records = 0u64;
    while input.read_exact(&mut size).is_ok() {
        record.resize(u32::from_le_bytes(size) as usize, 0);
        input.read_exact(&mut record)?;
        records += 1;
        text.clear();
        cigar::cigar_to_bytes_into(&mut text, &record);
        let view = RawRecordView::new(&record);
        let (refs, bases) = view.cigar_lengths();
        let (place, bin) = (cigar::unclipped_5prime_from_raw_bam(&record), bin::bin_from_raw_bam(&record));
        write!(out, "{records}\t")?;
        out.write_all(&text)?;
        let same = match view.l_seq() as usize {
            0 => '-',
            stored if stored == bases => '1',
            _ => '0',
        };
        write!(out, "\t{refs}\t{bases}\t")?;
        if view.flags() & 4 == 0 && !text.is_empty() {
            write!(out, "{place}")?;
        } else {
            out.write_all(b".")?;
        }
        writeln!(out, "\t{bin}\t{same}")?;
    }
    writeln!(out, "records {records}")
}
