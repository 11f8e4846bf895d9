//! The tree file: its head and its directory.

use crate::fault::Denial;

pub const MARK: &[u8; 4] = b"VRPC";
pub const MOST_RECORDS: usize = 2_000;
/// Bytes of the head, and of each pair of the directory.
pub const HEAD: usize = 8;
pub const PAIR: usize = 8;

/// The measure that all leaves of the file are by.
#[derive(Clone, Copy, Debug, PartialEq, Eq)]
pub enum Kind {
    Time,
    Load,
    Pair,
}

#[derive(Clone, Copy)]
pub struct Record<'a> {
    /// Where the record begins in the file.
    pub offset: usize,
    pub bytes: &'a [u8],
}

pub struct TreeFile<'a> {
    pub kind: Kind,
    pub records: Vec<Record<'a>>,
}

/// Reads the head and the directory of a tree file for a case of that many
/// customers.
pub fn read(file: &[u8], customers: usize) -> Result<TreeFile<'_>, Denial> {
    if file.len() < HEAD || !file.starts_with(MARK) {
        return Err(Denial::at(5, 0));
    }
    let kind = match file[4] {
        1 => Kind::Time,
        2 => Kind::Load,
        3 => Kind::Pair,
        _ => return Err(Denial::at(6, 4)),
    };
    if usize::from(file[5]) != customers {
        return Err(Denial::at(6, 5));
    }
    let count = usize::from(u16::from_le_bytes([file[6], file[7]]));
    if count == 0 || count > MOST_RECORDS {
        return Err(Denial::at(6, 6));
    }
    let records = directory(file, count)?
        .into_iter()
        .map(|(start, end)| Record { offset: start, bytes: &file[start..end] })
        .collect();
    Ok(TreeFile { kind, records })
}

/// The start and the end of each record. They fill the file after the
/// directory without gaps, so all ends lie within the file.
fn directory(file: &[u8], count: usize) -> Result<Vec<(usize, usize)>, Denial> {
    let mut bounds = Vec::with_capacity(count);
    let mut due = (HEAD + PAIR * count) as u64;
    for k in 0..count {
        let place = HEAD + PAIR * k;
        let denied = Denial::at(7, place);
        let pair = file.get(place..place + PAIR).ok_or(denied)?;
        let start = word(&pair[..4]);
        let length = word(&pair[4..]);
        let end = start + length;
        let last = k + 1 == count;
        if start != due || length == 0 || last && end != file.len() as u64 {
            return Err(denied);
        }
        bounds.push((start as usize, end as usize));
        due = end;
    }
    Ok(bounds)
}

/// Four bytes as an unsigned number; two of them sum up without wrapping.
fn word(bytes: &[u8]) -> u64 {
    bytes.iter().rev().fold(0, |value, &byte| value << 8 | u64::from(byte))
}
