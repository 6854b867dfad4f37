//! What the tuned planner and the tuned model have in common, written for speed from documents 01
//! and 02 (a, c, f): settings, the words' codes, and banks, write buffer and last instants as a struct of numbers.

pub const LAST: u32 = 1_000_000_000;
/// Instants of states are counted from here.
pub const BASE: u32 = 3;
/// The last one so counted.
pub const MOST: u32 = LAST - BASE;
const CHANNEL_BYTES: usize = 752;

// ---- Settings ----

/// The settings, and what follows from them.
pub struct Figures {
    pub rc: u32,
    pub ras: u32,
    pub rp: u32,
    pub pp: u32,
    pub rr: u32,
    pub rcd: u32,
    pub rtr: u32,
    pub rdp: u32,
    pub rtp: u32,
    pub cc: u32,
    pub cac: u32,
    pub cwd: u32,
    pub offp: u32,
    pub rows: u32,
    pub columns: u32,
    pub act_to_wr: u32,
    pub rd_to_wr: u32,
    pub row_device: u64,
    pub col_device: u64,
    pub second_device: u64,
    /// The banks of a run, less 1: the core form.
    pub run: usize,
}

#[rustfmt::skip]
const BOUNDS: [(u16, u16); 16] = [
    (4, 64), (4, 64), (4, 64), (4, 64), (4, 64), (4, 64), (4, 64), (4, 64), (4, 64), (4, 16),
    (7, 12), (1, 11), (4, 32), (1, 512), (1, 128), (0, 31),
];

/// The banks of a run by the core form, less 1.
const RUNS: [usize; 3] = [15, 31, 0];

impl Figures {
    #[inline(always)]
    pub fn of(settings: &[u8]) -> Option<Figures> {
        let settings: &[u8; 32] = settings.try_into().ok()?;
        let number = |i: usize| u16::from_le_bytes([settings[2 * i], settings[2 * i + 1]]);
        let mut numbers: [u16; 16] = std::array::from_fn(number);
        numbers[15] = settings[30].into(); // the device; the core form follows it
        let fit = |i: usize| (numbers[i] >= BOUNDS[i].0) & (numbers[i] <= BOUNDS[i].1);
        let fits = (0..16).fold(true, |fits, i| fits & fit(i));
        let n = |i: usize| u32::from(numbers[i]);
        if !fits | (n(11) >= n(10)) {
            return None;
        }
        let device = u64::from(n(15));
        let run = *RUNS.get(usize::from(settings[31]))?;
        Some(Figures {
            rc: n(0),
            ras: n(1),
            rp: n(2),
            pp: n(3),
            rr: n(4),
            rcd: n(5),
            rtr: n(6),
            rdp: n(7),
            rtp: n(8),
            cc: n(9),
            cac: n(10),
            cwd: n(11),
            offp: n(12),
            rows: n(13),
            columns: n(14),
            act_to_wr: n(5).saturating_sub(n(6)),
            rd_to_wr: n(9) + n(10) - n(11),
            row_device: (16 + device) << 18, // DR4T, DR4F, DR3 to DR0
            col_device: (32 | device) << 34,
            second_device: device << 11,
            run,
        })
    }
}

// ---- Words ----

pub const ACT: u64 = 0x1000;
pub const PRER: u64 = 0x600;
pub const REFA: u64 = 0x0C0;
pub const REFP: u64 = 0x540;
pub const NOCOP: u64 = 0;
pub const WR: u64 = 1;
pub const RD: u64 = 3;
pub const WRA: u64 = 5;
pub const RDA: u64 = 7;
pub const FULL: u16 = 0xFFFF;

// ---- Channel ----

#[derive(Clone, Copy)]
pub struct Write {
    pub bank: usize,
    pub column: u32,
    pub at: u32,
    /// Whether it is a WRA: its retire closes the bank.
    pub closes: bool,
}

impl Write {
    pub const NONE: Write = Write {
        bank: 0,
        column: 0,
        at: 0,
        closes: false,
    };

    /// The write of 8 bytes.
    fn of(bytes: u64) -> Write {
        Write {
            bank: (bytes & 0xFF) as usize,
            column: (bytes >> 8 & 0xFF) as u32,
            at: (bytes >> 32) as u32,
            closes: bytes >> 16 & 1 == 1,
        }
    }

    fn bytes(self) -> u64 {
        let closes = u64::from(self.closes) << 16;
        u64::from(self.at) << 32 | closes | u64::from(self.column) << 8 | self.bank as u64
    }
}

/// Banks, write buffer and last instants. Instants are counted from `BASE`, and 0 for never; a tag is
/// 0 for a closed bank, 1 + row for an open one and `UNDER_REFRESH`.
#[derive(Clone)]
pub struct Channel {
    pub opened: [u32; 32],
    pub act: [u32; 32],
    pub pre: [u32; 32],
    pub rd: [u32; 32],
    pub retire: [u32; 32],
    pub tags: [u16; 32],
    pub last: u32,
    pub last_row: u32,
    pub last_col: u32,
    pub last_pre: u32,
    pub last_rd: u32,
    pub last_implied: u32,
    /// How many writes wait, and these, oldest first.
    pub count: usize,
    pub writes: [Write; 2],
    /// Whether the data of the newest have not come.
    pub due: bool,
    /// The largest of `opened`, or none before it was needed.
    pub last_opened: Option<u32>,
}

pub const UNDER_REFRESH: u16 = 0xFFFF;

/// The instant that a last one and a distance ask of the next.
pub fn since(last: u32, gap: u32) -> u32 {
    if last == 0 {
        0
    } else {
        last + gap
    }
}

/// The neighbours of a bank; the bank itself in the place of one that is missing.
pub fn beside(f: &Figures, bank: usize) -> (usize, usize) {
    let below = bank - usize::from(bank & f.run != 0);
    let above = bank + usize::from((bank + 1) & f.run != 0);
    (below, above)
}

pub fn latest(instants: &[u32]) -> u32 {
    instants.iter().fold(0, |latest, at| latest.max(*at))
}

/// The latest of a bank's and its neighbours' instants.
pub fn near(f: &Figures, instants: &[u32; 32], bank: usize) -> u32 {
    let (below, above) = beside(f, bank & 31);
    instants[below & 31]
        .max(instants[bank & 31])
        .max(instants[above & 31])
}

impl Channel {
    pub const FRESH: Channel = Channel {
        opened: [0; 32],
        act: [0; 32],
        pre: [0; 32],
        rd: [0; 32],
        retire: [0; 32],
        tags: [0; 32],
        last: 0,
        last_row: 0,
        last_col: 0,
        last_pre: 0,
        last_rd: 0,
        last_implied: 0,
        count: 0,
        writes: [Write::NONE; 2],
        due: false,
        last_opened: None,
    };

    // ---- Write buffer ----

    pub fn waiting(&self) -> &[Write] {
        &self.writes[..self.count.min(2)]
    }

    /// The older write leaves, at an instant.
    pub fn retired(&mut self, at: u32) -> Write {
        let [older, newer] = self.writes;
        self.retire[older.bank & 31] = at;
        self.writes = [newer, Write::NONE];
        self.count -= 1;
        older
    }

    /// A write joins, where at most one waits.
    pub fn joined(&mut self, write: Write) {
        self.writes[self.count & 1] = write;
        self.count += 1;
    }

    // ---- Implied PRERs ----

    /// What rules 6, 8 and 13 ask of a packet whose PRER of a bank is implied.
    pub fn implied_asks(&self, f: &Figures, bank: usize) -> u32 {
        let asked = since(near(f, &self.opened, bank), f.ras)
            .max(since(self.last_pre, f.pp))
            .max(since(near(f, &self.rd, bank), f.rdp))
            .max(since(near(f, &self.retire, bank), f.rtp));
        asked.saturating_sub(f.offp)
    }

    /// The PRER that a packet at an instant implies. Neighbours of a bank that is open are closed.
    pub fn imply(&mut self, f: &Figures, at: u32, bank: usize) {
        let prer = at + f.offp;
        (self.last_pre, self.last_implied) = (prer, prer);
        (self.pre[bank & 31], self.tags[bank & 31]) = (prer, 0);
    }

    /// Rule 5 for banks that are not near. Where tRR is at most tRC the last ACT decides.
    pub fn others_ask(&mut self, f: &Figures, bank: usize) -> u32 {
        if f.rr <= f.rc {
            let last = self.last_opened.unwrap_or_else(|| latest(&self.opened));
            self.last_opened = Some(last);
            return since(last, f.rr);
        }
        let (below, above) = beside(f, bank);
        let before = latest(&self.opened[..below]);
        let after = latest(&self.opened[above + 1..]);
        since(before.max(after), f.rr)
    }

    // ---- Bytes ----

    /// The channel of bytes that need not be one.
    pub fn decode(state: &[u8; CHANNEL_BYTES]) -> Channel {
        let number = |at: usize| u32::from_le_bytes(state[at..at + 4].try_into().unwrap());
        let write =
            |at: usize| Write::of(u64::from_le_bytes(state[at..at + 8].try_into().unwrap()));
        Channel {
            opened: plane(state, 0),
            act: plane(state, 128),
            pre: plane(state, 256),
            rd: plane(state, 384),
            retire: plane(state, 512),
            tags: tags(state),
            last: number(704),
            last_row: number(708),
            last_col: number(712),
            last_pre: number(716),
            last_rd: number(720),
            last_implied: number(724),
            count: state[728].into(),
            writes: [write(736), write(744)],
            due: state[729] != 0,
            last_opened: None,
        }
    }

    /// Whether each last instant is at most `most`.
    pub fn lasts_are(&self, most: u32) -> bool {
        let bad = |at: u32| u32::from(at > most);
        let planes = [&self.opened, &self.act, &self.pre, &self.rd, &self.retire];
        let banks = (0..32).fold(0, |all, i| {
            planes.iter().fold(all, |all, p| all | bad(p[i]))
        });
        let [a, b, c] = [self.last, self.last_row, self.last_col].map(bad);
        let [d, e, f] = [self.last_pre, self.last_rd, self.last_implied].map(bad);
        banks | a | b | c | d | e | f == 0
    }

    /// Whether of two neighbours one is closed.
    pub fn apart(&self, f: &Figures) -> bool {
        let mut above = [0; 32];
        above[..31].copy_from_slice(&self.tags[1..]);
        above[15] *= u16::from(16 & f.run != 0);
        let beside = self.tags.iter().zip(&above);
        let both = beside.fold(0, |both, (tag, above)| both | tag.min(above));
        (both == 0) | (f.run == 0)
    }

    /// Whether the bytes from 728 on are of a buffer, and the banks of waiting writes are open by ACT.
    pub fn buffer_fits(&self, f: &Figures, state: &[u8; CHANNEL_BYTES]) -> bool {
        let number = |at: usize| u64::from_le_bytes(state[at..at + 8].try_into().unwrap());
        let (counts, writes) = (number(728), [number(736), number(744)]);
        // So many writes, due or not, and zeros.
        let counted = match counts & !0x100 {
            0 => counts | writes[0] | writes[1] == 0,
            1 => writes[0] & 0xFFFE_0000 | writes[1] == 0,
            2 => (writes[0] | writes[1]) & 0xFFFE_0000 == 0,
            _ => false,
        };
        let open = |tag: &u16| (1..UNDER_REFRESH).contains(tag);
        let fits = |w: &Write| {
            self.tags.get(w.bank).is_some_and(open)
                && w.column < f.columns
                && w.at.wrapping_sub(1) < MOST
        };
        counted && self.waiting().iter().all(fits)
    }

    pub fn encode(&self, state: &mut [u8; CHANNEL_BYTES]) {
        put_plane(state, 0, &self.opened);
        put_plane(state, 128, &self.act);
        put_plane(state, 256, &self.pre);
        put_plane(state, 384, &self.rd);
        put_plane(state, 512, &self.retire);
        let tags = state[640..704].as_chunks_mut::<2>().0;
        for (bytes, tag) in tags.iter_mut().zip(&self.tags) {
            *bytes = tag.to_le_bytes();
        }
        let lasts = [
            self.last,
            self.last_row,
            self.last_col,
            self.last_pre,
            self.last_rd,
            self.last_implied,
        ];
        for (bytes, at) in state[704..728].as_chunks_mut::<4>().0.iter_mut().zip(lasts) {
            *bytes = at.to_le_bytes();
        }
        let counts = u64::from(self.due) << 8 | self.count as u64;
        state[728..736].copy_from_slice(&counts.to_le_bytes());
        state[736..744].copy_from_slice(&self.writes[0].bytes().to_le_bytes());
        state[744..].copy_from_slice(&self.writes[1].bytes().to_le_bytes());
    }
}

/// The numbers of all banks that start at a byte.
fn plane(state: &[u8; CHANNEL_BYTES], at: usize) -> [u32; 32] {
    let mut plane = [0; 32];
    for (number, bytes) in plane.iter_mut().zip(state[at..at + 128].as_chunks::<4>().0) {
        *number = u32::from_le_bytes(*bytes);
    }
    plane
}

fn put_plane(state: &mut [u8; CHANNEL_BYTES], at: usize, plane: &[u32; 32]) {
    let numbers = state[at..at + 128].as_chunks_mut::<4>().0;
    for (bytes, number) in numbers.iter_mut().zip(plane) {
        *bytes = number.to_le_bytes();
    }
}

fn tags(state: &[u8; CHANNEL_BYTES]) -> [u16; 32] {
    let mut tags = [0; 32];
    for (tag, bytes) in tags.iter_mut().zip(state[640..704].as_chunks::<2>().0) {
        *tag = u16::from_le_bytes(*bytes);
    }
    tags
}
