//! Saved lists as docs/SPECIFICATION.md (01) has them, written from that paper alone: their bytes, and what open gives for a
//! file; and the two limits that open looks at. Nothing of the library.

pub const LONGEST_JOURNAL: usize = 16384;

pub fn allowed(capacity: usize) -> bool {
    (0..=12).any(|power| capacity == 64 << power)
}

/// The bytes of a saved list.
pub fn saved(words: u16, runs: &[(u32, u32)]) -> Vec<u8> {
    let mut file = b"MSL\x00\x01".to_vec();
    file.extend(words.to_be_bytes());
    file.extend((runs.len() as u32).to_be_bytes());
    for run in runs {
        file.extend(run.0.to_be_bytes());
        file.extend(run.1.to_be_bytes());
    }
    file
}

fn big_endian(bytes: &[u8]) -> usize {
    bytes.iter().fold(0, |number, byte| number * 256 + *byte as usize)
}

/// The storage's numbers for a capacity that is allowed.
pub fn storage_needed(capacity: usize) -> usize {
    let words = capacity / 64;
    words + 3 * words.div_ceil(64) + 2
}

/// What open gives: capacity and runs, or the refusal and the first bad run's index.
pub fn opening(
    file: &[u8],
    limit: usize,
    storage: usize,
    journal: usize,
) -> Result<(usize, Vec<(u32, u32)>), (u32, u64)> {
    if file.len() < 11 || &file[..3] != b"MSL" || big_endian(&file[3..5]) != 1 {
        return Err((7, 0));
    }
    let (words, count) = (big_endian(&file[5..7]), big_endian(&file[7..11]));
    let capacity = 64 * words;
    if !allowed(capacity) || limit > LONGEST_JOURNAL {
        return Err((1, 0));
    }
    if file.len() != 11 + 8 * count {
        return Err((7, 0));
    }
    if storage < storage_needed(capacity) || journal < limit {
        return Err((3, 0));
    }
    let mut runs: Vec<(u32, u32)> = Vec::new();
    for (index, bytes) in file[11..].chunks(8).enumerate() {
        let (start, end) = (big_endian(&bytes[..4]), big_endian(&bytes[4..]));
        let above = runs.last().is_none_or(|run| start > run.1 as usize);
        if start >= end || end > capacity || !above {
            return Err((8, index as u64));
        }
        runs.push((start as u32, end as u32));
    }
    Ok((capacity, runs))
}
