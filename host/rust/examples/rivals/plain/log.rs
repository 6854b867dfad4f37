//! The log calls of the rival "plain", written for speed.

use crate::rivals::tuned_state::{Figures, ACT, PRER, REFA, REFP};

/// Number and place of a refusal.
pub type Refused = (u32, usize);

// The checks of a record have no branches: kinds and commands alternate too irregularly.

fn row_fits(f: &Figures, word: u64) -> bool {
    let rest = (word ^ f.row_device) & !(31 << 13);
    (rest.wrapping_sub(ACT) < f.rows.into()) | (rest == PRER) | (rest == REFA) | (rest == REFP)
}

fn col_fits(f: &Figures, word: u64) -> bool {
    let rest = word ^ f.col_device;
    let (cop, m, low) = (rest >> 17 & 15, rest & 0x10000 != 0, rest & 0xFFFF);
    let low_fits = (m & (low != 0xFFFF)) | (!m & (low == f.second_device));
    let column_fits = (rest & !(31 << 29)) >> 21 < f.columns.into();
    // WR, RD, WRA and RDA are 1, 3, 5 and 7.
    low_fits & column_fits & ((cop & 9 == 1) | (rest >> 17 == 0))
}

fn number(record: &[u8; 32], at: usize) -> u64 {
    u64::from_le_bytes(record[at..at + 8].try_into().unwrap())
}

fn record_fits(f: &Figures, record: &[u8; 32]) -> bool {
    let word = number(record, 8);
    let no_data = number(record, 16) | number(record, 24) == 0;
    let kind = number(record, 0) >> 32;
    let row = (kind == 0) & no_data & row_fits(f, word);
    let col = (kind == 1) & no_data & col_fits(f, word);
    row | col | ((kind == 2) & (word == 0))
}

/// Looks at 15 records at a time, and at each of them only where one is bad.
fn first_bad(f: &Figures, records: &[[u8; 32]]) -> Option<usize> {
    let all_fit = |part: &[[u8; 32]]| part.iter().fold(true, |fit, r| fit & record_fits(f, r));
    let part = records.chunks(15).position(|part| !all_fit(part))?;
    records[15 * part..]
        .iter()
        .position(|r| !record_fits(f, r))
        .map(|i| 15 * part + i)
}

fn sum(bytes: &[u8]) -> u32 {
    let words = bytes.as_chunks::<4>().0.iter();
    words.fold(0, |sum: u32, word| {
        sum.wrapping_add(u32::from_le_bytes(*word))
    })
}

fn write_block(block: &mut [u8; 512], number: u32, records: &[u8]) {
    block[..records.len()].copy_from_slice(records);
    block[records.len()..].fill(0);
    block[480..484].copy_from_slice(&number.to_le_bytes());
    block[484..488].copy_from_slice(&((records.len() / 32) as u32).to_le_bytes());
    let check = sum(&block[..508]).wrapping_neg();
    block[508..].copy_from_slice(&check.to_le_bytes());
}

pub fn log_encode(settings: &[u8], list: &[u8], log: &mut [u8]) -> Result<usize, Refused> {
    let f = Figures::of(settings).ok_or((1, 0))?;
    let (records, rest) = list.as_chunks::<32>();
    if !rest.is_empty() {
        return Err((13, 0));
    }
    if let Some(place) = first_bad(&f, records) {
        return Err((10, place));
    }
    let need = records.len().div_ceil(15);
    let blocks = log.as_chunks_mut::<512>().0;
    if blocks.len() < need || need as u64 > 1 << 32 {
        return Err((8, 0));
    }
    for (k, (block, part)) in blocks.iter_mut().zip(list.chunks(480)).enumerate() {
        write_block(block, k as u32, part);
    }
    Ok(need)
}

/// The records used, if block k has the right form.
fn used(block: &[u8; 512], k: usize, last: bool) -> Option<usize> {
    let field = |at: usize| u32::from_le_bytes(block[at..at + 4].try_into().unwrap());
    let used = field(484) as usize;
    let count_fits = used == 15 || (last && used.wrapping_sub(1) < 14);
    if !count_fits || field(480) as usize != k || sum(block) != 0 {
        return None;
    }
    let zeros = block[488..508]
        .iter()
        .chain(&block[32 * used..480])
        .fold(0, |or, b| or | b);
    (zeros == 0).then_some(used)
}

pub fn log_decode(settings: &[u8], log: &[u8], list: &mut [u8]) -> Result<usize, Refused> {
    let f = Figures::of(settings).ok_or((1, 0))?;
    let (blocks, rest) = log.as_chunks::<512>();
    if !rest.is_empty() {
        return Err((13, 0));
    }
    let (mut count, mut bad) = (0, None);
    for (k, block) in blocks.iter().enumerate() {
        let used = used(block, k, k + 1 == blocks.len()).ok_or((12, k))?;
        if bad.is_none() {
            bad = first_bad(&f, &block.as_chunks::<32>().0[..used]).map(|i| count + i);
        }
        count += used;
    }
    if let Some(place) = bad {
        return Err((10, place));
    }
    let room = list.len() / 32;
    let to = list
        .get_mut(..32 * count)
        .filter(|_| room >= count)
        .ok_or((8, 0))?;
    for (part, block) in to.chunks_mut(480).zip(blocks) {
        part.copy_from_slice(&block[..part.len()]);
    }
    Ok(count)
}

/// The word of a block whose used records are well formed.
fn banks_of(block: &[u8; 512], used: usize) -> u32 {
    block.as_chunks::<32>().0[..used]
        .iter()
        .fold(0, |words, record| {
            let word = u64::from_le_bytes(record[8..16].try_into().unwrap());
            let (row, col) = (record[4] == 0, record[4] == 1 && word >> 17 & 15 != 0);
            let bank = if row { word >> 13 } else { word >> 29 } & 31;
            words | u32::from(row | col) << bank
        })
}

/// The words of a log that passes, in one pass.
fn words(settings: &[u8], log: &[u8]) -> Result<Vec<u32>, Refused> {
    let f = Figures::of(settings).ok_or((1, 0))?;
    let (blocks, rest) = log.as_chunks::<512>();
    if !rest.is_empty() {
        return Err((13, 0));
    }
    let (mut count, mut bad, mut words) = (0, None, Vec::with_capacity(blocks.len()));
    for (k, block) in blocks.iter().enumerate() {
        let used = used(block, k, k + 1 == blocks.len()).ok_or((12, k))?;
        if bad.is_none() {
            bad = first_bad(&f, &block.as_chunks::<32>().0[..used]).map(|i| count + i);
        }
        count += used;
        words.push(banks_of(block, used));
    }
    bad.map_or(Ok(words), |place| Err((10, place)))
}

pub fn index_make(settings: &[u8], log: &[u8], index: &mut [u8]) -> Result<usize, Refused> {
    let words = words(settings, log)?;
    let places = index.as_chunks_mut::<4>().0;
    if places.len() < words.len() {
        return Err((8, 0));
    }
    for (place, word) in places.iter_mut().zip(&words) {
        *place = word.to_le_bytes();
    }
    Ok(words.len())
}

pub fn index_query(
    settings: &[u8],
    log: &[u8],
    index: &[u8],
    bank: u32,
    out: &mut [u8],
) -> Result<usize, Refused> {
    let words = words(settings, log)?;
    let held = index.as_chunks::<4>().0;
    let wrong = |k: &usize| held.get(*k) != words.get(*k).map(|w| w.to_le_bytes()).as_ref();
    if let Some(k) = (0..held.len().max(words.len())).find(wrong) {
        return Err((14, k));
    }
    let found: Vec<u32> = (0..words.len() as u32)
        .filter(|k| words[*k as usize] >> bank & 1 == 1)
        .collect();
    let places = out.as_chunks_mut::<4>().0;
    if places.len() < found.len() {
        return Err((8, 0));
    }
    for (place, k) in places.iter_mut().zip(&found) {
        *place = k.to_le_bytes();
    }
    Ok(found.len())
}
