//! Settings, words, records and logs as plain Rust, written from documents 01 and 02 (c, f) alone.

/// Number and place of a refusal; the place is 0 where none is named.
#[derive(Clone, Copy, Debug, PartialEq, Eq)]
pub struct Refused {
    pub number: u32,
    pub place: usize,
}

fn refused<T>(number: u32, place: usize) -> Result<T, Refused> {
    Err(Refused { number, place })
}

// ---- Settings ----

/// Those figures of the settings on which words depend.
#[derive(Clone, Copy)]
pub struct Figures {
    pub rows: u64,
    pub columns: u64,
    pub device: u64,
}

/// Low and high bounds of the sixteen numbers; tCWD is also below tCAC, and the high byte of the last
/// number is the core form.
pub const BOUNDS: [(u16, u16); 16] = [
    (4, 64),  // tRC
    (4, 64),  // tRAS
    (4, 64),  // tRP
    (4, 64),  // tPP
    (4, 64),  // tRR
    (4, 64),  // tRCD
    (4, 64),  // tRTR
    (4, 64),  // tRDP
    (4, 64),  // tRTP
    (4, 16),  // tCC
    (7, 12),  // tCAC
    (1, 11),  // tCWD
    (4, 32),  // tOFFP
    (1, 512), // rows
    (1, 128), // columns
    (0, 31),  // device
];
pub const T_CAC: usize = 10;
pub const T_CWD: usize = 11;
pub const T_OFFP: usize = 12;
pub const ROWS: usize = 13;
pub const COLUMNS: usize = 14;
pub const DEVICE: usize = 15;

/// The core forms: 0 split, 1 one run of 32 dependent banks, 2 no dependency.
pub const CORES: [u16; 3] = [0, 1, 2];

/// The last number of the settings as device and core form.
pub fn device_and_core(numbers: &[u16; 16]) -> (u16, u16) {
    (numbers[DEVICE] % 256, numbers[DEVICE] / 256)
}

/// The figures, if the settings are not refused under 1.
pub fn figures(settings: &[u8]) -> Option<Figures> {
    if settings.len() != 32 {
        return None;
    }
    let mut numbers: [u16; 16] =
        std::array::from_fn(|i| number(&settings[2 * i..2 * i + 2]) as u16);
    let (device, core) = device_and_core(&numbers);
    numbers[DEVICE] = device;
    let in_range = numbers
        .iter()
        .zip(BOUNDS)
        .all(|(n, (low, high))| low <= *n && *n <= high);
    if !in_range || core > 2 || numbers[T_CWD] > numbers[T_CAC] - 1 {
        return None;
    }
    Some(Figures {
        rows: numbers[ROWS].into(),
        columns: numbers[COLUMNS].into(),
        device: device.into(),
    })
}

/// A number of up to 8 bytes, low byte first.
pub fn number(bytes: &[u8]) -> u64 {
    bytes.iter().rev().fold(0, |n, b| n * 256 + u64::from(*b))
}

// ---- Words ----

/// A packet: the place is the row of ACT, the column of WR, RD, WRA and RDA; the mask of a COL packet
/// is FFFF where it carries none.
#[derive(Clone, Copy, Debug, PartialEq, Eq)]
pub struct Fields {
    pub command: u32,
    pub bank: u32,
    pub place: u32,
    pub mask: u32,
}

pub const ACT: u32 = 0;
pub const PRER: u32 = 1;
pub const REFA: u32 = 2;
pub const REFP: u32 = 3;
pub const NOCOP: u32 = 4;
pub const WR: u32 = 5;
pub const RD: u32 = 6;
pub const WRA: u32 = 7;
pub const RDA: u32 = 8;

const ROPS: [(u32, u64); 3] = [(PRER, 0x600), (REFA, 0x0C0), (REFP, 0x540)];
const COPS: [(u32, u64); 5] = [(NOCOP, 0), (WR, 1), (RD, 3), (WRA, 5), (RDA, 7)];

fn code_of(codes: &[(u32, u64)], command: u32) -> Option<u64> {
    codes.iter().find(|c| c.0 == command).map(|c| c.1)
}

fn command_of(codes: &[(u32, u64)], code: u64) -> Option<u32> {
    codes.iter().find(|c| c.1 == code).map(|c| c.0)
}

/// Joins (width, value) fields, highest first.
fn join(fields: &[(u32, u64)]) -> u64 {
    fields
        .iter()
        .fold(0, |word, (width, value)| word << width | value)
}

/// Takes fields off a word, highest first.
struct Taker {
    word: u64,
    left: u32,
}

impl Taker {
    fn take(&mut self, width: u32) -> u64 {
        self.left -= width;
        self.word >> self.left & ((1 << width) - 1)
    }
}

/// DR4T, DR4F, DR3 to DR0.
fn row_device(device: u64) -> u64 {
    let high = if device < 16 { 0b01 } else { 0b10 };
    join(&[(2, high), (4, device % 16)])
}

fn row_word(f: &Figures, p: Fields) -> Option<u64> {
    if p.bank > 31 || p.mask != 0 {
        return None;
    }
    let front = join(&[(6, row_device(f.device)), (5, p.bank.into())]);
    if p.command == ACT {
        let fits = u64::from(p.place) < f.rows;
        return fits.then(|| join(&[(11, front), (1, 1), (3, 0), (9, p.place.into())]));
    }
    let rop = code_of(&ROPS, p.command)?;
    (p.place == 0).then(|| join(&[(11, front), (1, 0), (1, 0), (11, rop)]))
}

fn col_word(f: &Figures, p: Fields) -> Option<u64> {
    let cop = code_of(&COPS, p.command)?;
    if p.bank > 31 || u64::from(p.place) >= f.columns || p.mask > 0xFFFF {
        return None;
    }
    if p.command == NOCOP && (p.bank, p.place) != (0, 0) {
        return None;
    }
    let bank = p.bank.into();
    let front = [
        (1, 1),
        (5, f.device),
        (5, bank),
        (1, 0),
        (7, p.place.into()),
        (4, cop),
    ];
    let rest = if p.mask == 0xFFFF {
        join(&[(1, 0), (5, f.device), (6, 0), (5, 0)])
    } else {
        let (mb, ma) = (p.mask / 256, p.mask % 256);
        join(&[(1, 1), (8, mb.into()), (8, ma.into())])
    };
    Some(join(&[(23, join(&front)), (17, rest)]))
}

/// The word of a packet, if it has one.
pub fn word(f: &Figures, p: Fields) -> Option<u64> {
    if p.command <= REFP {
        row_word(f, p)
    } else {
        col_word(f, p)
    }
}

fn row_packet(f: &Figures, word: u64) -> Option<Fields> {
    let mut bits = Taker { word, left: 24 };
    if word >> 24 != 0 || bits.take(6) != row_device(f.device) {
        return None;
    }
    let bank = bits.take(5) as u32;
    if bits.take(1) == 1 {
        let (zeros, row) = (bits.take(3), bits.take(9));
        let fits = zeros == 0 && row < f.rows;
        return fits.then_some(Fields {
            command: ACT,
            bank,
            place: row as u32,
            mask: 0,
        });
    }
    let (zero, rop) = (bits.take(1), bits.take(11));
    let command = command_of(&ROPS, rop)?;
    (zero == 0).then_some(Fields {
        command,
        bank,
        place: 0,
        mask: 0,
    })
}

fn col_packet(f: &Figures, word: u64) -> Option<Fields> {
    let mut bits = Taker { word, left: 40 };
    if word >> 40 != 0 || bits.take(1) != 1 || bits.take(5) != f.device {
        return None;
    }
    let (bank, zero, column) = (bits.take(5) as u32, bits.take(1), bits.take(7));
    let command = command_of(&COPS, bits.take(4))?;
    let mask = col_mask(f, &mut bits)?;
    if zero != 0 || column >= f.columns || (command == NOCOP && (bank, column) != (0, 0)) {
        return None;
    }
    Some(Fields {
        command,
        bank,
        place: column as u32,
        mask,
    })
}

/// M and what follows it.
fn col_mask(f: &Figures, bits: &mut Taker) -> Option<u32> {
    if bits.take(1) == 1 {
        let (mb, ma) = (bits.take(8) as u32, bits.take(8) as u32);
        let mask = 256 * mb + ma;
        return (mask != 0xFFFF).then_some(mask);
    }
    let (device, zeros, xop) = (bits.take(5), bits.take(6), bits.take(5));
    ((device, zeros, xop) == (f.device, 0, 0)).then_some(0xFFFF)
}

/// The packet of a word of kind 0 (ROW) or 1 (COL), if it has one.
pub fn packet(f: &Figures, kind: u32, word: u64) -> Option<Fields> {
    match kind {
        0 => row_packet(f, word),
        1 => col_packet(f, word),
        _ => None,
    }
}

pub fn word_encode(settings: &[u8], p: Fields) -> Result<u64, Refused> {
    let Some(f) = figures(settings) else {
        return refused(1, 0);
    };
    let place = u64::from(p.place);
    let number = match p.command {
        _ if p.bank > 31 => 4,
        ACT if place >= f.rows => 5,
        WR | RD | WRA | RDA if place >= f.columns => 6,
        _ => 10,
    };
    word(&f, p).map_or(refused(number, 0), Ok)
}

pub fn word_decode(settings: &[u8], kind: u32, word: u64) -> Result<Fields, Refused> {
    let Some(f) = figures(settings) else {
        return refused(1, 0);
    };
    packet(&f, kind, word).map_or(refused(10, 0), Ok)
}

// ---- Records and blocks ----

/// Whether a record of 32 bytes is not refused under 10. Any instant will do.
pub fn record_fits(f: &Figures, record: &[u8]) -> bool {
    let (kind, spare, word, data) = (
        record[4],
        &record[5..8],
        number(&record[8..16]),
        &record[16..32],
    );
    if spare != [0; 3] {
        return false;
    }
    match kind {
        2 => word == 0,
        kind => data == [0; 16] && packet(f, kind.into(), word).is_some(),
    }
}

pub fn first_bad_record(f: &Figures, list: &[u8]) -> Option<usize> {
    list.chunks(32).position(|record| !record_fits(f, record))
}

/// The sum of the little-endian words, modulo 2^32.
fn sum(bytes: &[u8]) -> u32 {
    bytes
        .chunks(4)
        .fold(0, |s: u32, w| s.wrapping_add(number(w) as u32))
}

/// Sets the check of a block.
pub fn seal(block: &mut [u8]) {
    let check = 0u32.wrapping_sub(sum(&block[..508]));
    block[508..].copy_from_slice(&check.to_le_bytes());
}

/// A block of up to 15 records with any number and count.
pub fn block(number: u32, used: u32, records: &[u8]) -> Vec<u8> {
    let mut block = vec![0; 512];
    block[..records.len()].copy_from_slice(records);
    block[480..484].copy_from_slice(&number.to_le_bytes());
    block[484..488].copy_from_slice(&used.to_le_bytes());
    seal(&mut block);
    block
}

/// The blocks of a list.
pub fn blocks(list: &[u8]) -> Vec<u8> {
    let parts = list.chunks(15 * 32).enumerate();
    parts
        .flat_map(|(k, records)| block(k as u32, (records.len() / 32) as u32, records))
        .collect()
}

/// Whether block k of n has the right form, its records apart.
fn block_fits(block: &[u8], k: usize, n: usize) -> bool {
    let used = number(&block[484..488]) as usize;
    let full = used == 15 || (k + 1 == n && (1..15).contains(&used));
    full && number(&block[480..484]) == k as u64
        && block[32 * used..480].iter().all(|b| *b == 0)
        && block[488..508].iter().all(|b| *b == 0)
        && sum(block) == 0
}

pub fn first_bad_block(log: &[u8]) -> Option<usize> {
    let n = log.len() / 512;
    (0..n).find(|k| !block_fits(&log[512 * k..512 * (k + 1)], *k, n))
}

pub fn records(log: &[u8]) -> Vec<u8> {
    log.chunks(512)
        .flat_map(|b| b[..32 * number(&b[484..488]) as usize].to_vec())
        .collect()
}

pub fn log_encode(settings: &[u8], list: &[u8], log: &mut [u8]) -> Result<usize, Refused> {
    let Some(f) = figures(settings) else {
        return refused(1, 0);
    };
    if !list.len().is_multiple_of(32) {
        return refused(13, 0);
    }
    if let Some(place) = first_bad_record(&f, list) {
        return refused(10, place);
    }
    let new = blocks(list);
    if log.len() / 512 < new.len() / 512 {
        return refused(8, 0);
    }
    log[..new.len()].copy_from_slice(&new);
    Ok(new.len() / 512)
}

pub fn log_decode(settings: &[u8], log: &[u8], list: &mut [u8]) -> Result<usize, Refused> {
    let Some(f) = figures(settings) else {
        return refused(1, 0);
    };
    if !log.len().is_multiple_of(512) {
        return refused(13, 0);
    }
    if let Some(place) = first_bad_block(log) {
        return refused(12, place);
    }
    let new = records(log);
    if let Some(place) = first_bad_record(&f, &new) {
        return refused(10, place);
    }
    if list.len() / 32 < new.len() / 32 {
        return refused(8, 0);
    }
    list[..new.len()].copy_from_slice(&new);
    Ok(new.len() / 32)
}
