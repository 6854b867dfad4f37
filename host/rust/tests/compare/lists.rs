//! Lists for the rules: legal ones from a generator, and changes of them.

use crate::random::{bytes, Random};
use crate::reference::{self, Fields, ACT, COLUMNS, NOCOP, PRER, RD, RDA, REFA, REFP, WR, WRA};
use crate::reference_rules::{self as rules, Bank, Step, Timings};
use crate::reference_steps::is_wra;

pub const LAST: u32 = 1_000_000_000;

/// A record: a packet, or a D where there is none.
#[derive(Clone, Copy, Debug, PartialEq, Eq)]
pub struct Item {
    pub at: u32,
    pub packet: Option<Fields>,
}

/// The bytes of a list. Data bytes of a D come from its place.
pub fn list_bytes(settings: &[u8], items: &[Item]) -> Vec<u8> {
    let mut list = vec![0; 32 * items.len()];
    for (place, (item, record)) in items.iter().zip(list.chunks_mut(32)).enumerate() {
        record[..4].copy_from_slice(&item.at.to_le_bytes());
        if let Some(p) = item.packet {
            let word = reference::word_encode(settings, p).expect("a packet with a word");
            record[4] = u8::from(p.command >= NOCOP);
            record[8..16].copy_from_slice(&word.to_le_bytes());
        } else {
            record[4] = 2;
            (16..32).for_each(|i| record[i] = (place * 31 + i) as u8);
        }
    }
    list
}

// ---- Legal lists ----

/// A packet with row or column 0, and a mask if it is a COL packet.
fn first_place(command: u32, bank: u32, mask: u32) -> Fields {
    Fields {
        command,
        bank,
        place: 0,
        mask: if command < NOCOP { 0 } else { mask },
    }
}

/// Makes legal lists: each packet at the least instant that the distances allow, plus a delay.
pub struct Maker {
    numbers: [u16; 16],
    t: Timings,
    steps: Vec<Step>,
    /// Banks that are used more often than the others.
    banks: [u32; 4],
    most_delay: usize,
}

impl Maker {
    pub fn new(random: &mut Random, numbers: &[u16; 16]) -> Maker {
        let (low, any) = (random.below(30) as u32, random.below(32) as u32);
        let first = random.pick(&[0, 13, 14, 15, 28, low]);
        Maker {
            numbers: *numbers,
            t: Timings::of(&bytes(numbers)),
            steps: Vec::new(),
            banks: [first, first + 1, first + 2, any],
            most_delay: random.pick(&[0, 0, 0, 1, 3, 80]),
        }
    }

    /// A packet with a word. Its mask is likely to fit, and its bank to be open where it must be.
    pub fn packet(&self, random: &mut Random) -> Fields {
        let mut p = random.packet(&self.numbers);
        let open = |b: &u32| rules::bank(&self.steps, *b) == Bank::Open;
        let open: Vec<u32> = (0..32).filter(open).collect();
        if !open.is_empty() && random.chance(2) {
            let commands = [WR, WR, RD, NOCOP, WRA, RDA];
            let (command, column) = (random.pick(&commands), self.numbers[COLUMNS] - 1);
            let place = if command == NOCOP { 0 } else { column.into() };
            p = Fields {
                command,
                bank: 0,
                place,
                mask: random.pick(&[0xFFFF, 0, 3, 0x8001]),
            };
        }
        // Before the retire of a WRA little else may come.
        let waiting = rules::waiting(&self.steps);
        if waiting.iter().any(|(place, _)| is_wra(&self.steps[*place])) && random.chance(2) {
            p = first_place(NOCOP, 0, random.pick(&[0xFFFF, 0, 3]));
        }
        if p.command != NOCOP {
            let (any, often) = (random.below(32) as u32, random.pick(&self.banks));
            p.bank = random.pick(&[often, often, any]);
        }
        if (p.reads() || p.writes()) && !open.is_empty() && !random.chance(8) {
            p.bank = random.pick(&open);
        }
        if (p.command == PRER || p.command == REFP) && !open.is_empty() && random.chance(2) {
            p.bank = (random.pick(&open) + random.pick(&[0, 0, 1, 31])) % 32;
        }
        let waiting = waiting.len();
        // A WR beside a single write may retire that one or not.
        let retires = match waiting {
            _ if p.reads() => false,
            1 if p.writes() => random.chance(2),
            _ => waiting > 0,
        };
        if p.command >= NOCOP && !retires && !random.chance(16) {
            p.mask = 0xFFFF;
        }
        p
    }

    /// Adds a legal packet, and its D after a WR. False where the end of time leaves no room.
    pub fn add(&mut self, random: &mut Random) -> bool {
        for _ in 0..40 {
            let p = self.packet(random);
            let delay = random.below(self.most_delay + 1) as u64;
            let at = rules::least(&self.t, &self.steps, p) + delay;
            if self.push(at, Some(p)) {
                if p.writes() {
                    assert!(self.push(at + self.t.cwd, None), "the D of a legal WR");
                }
                return true;
            }
        }
        false
    }

    /// Adds the record if it breaks no rule.
    fn push(&mut self, at: u64, packet: Option<Fields>) -> bool {
        let step = Step::new(&self.t, &self.steps, at, packet);
        let legal = rules::broken(&self.t, &self.steps, &step).none();
        if legal {
            self.steps.push(step);
        }
        legal
    }

    /// Adds a packet as early as the distances allow, and its D after a WR, if it breaks no rule.
    fn send(&mut self, command: u32, bank: u32) {
        let p = first_place(command, bank, 0xFFFF);
        let at = rules::least(&self.t, &self.steps, p);
        if self.push(at, Some(p)) && p.writes() {
            self.push(at + self.t.cwd, None);
        }
    }

    /// Adds a first packet at a given instant.
    pub fn start(&mut self, random: &mut Random, at: u32) {
        let (command, bank) = (random.pick(&[ACT, PRER, REFA, REFP]), self.banks[0]);
        let p = first_place(command, bank, 0);
        assert!(self.push(at.into(), Some(p)), "a legal first packet");
    }

    pub fn items(&self) -> Vec<Item> {
        let item = |step: &Step| Item {
            at: step.at as u32,
            packet: step.packet,
        };
        self.steps.iter().map(item).collect()
    }

    /// The instant of the last packet.
    pub fn now(&self) -> u64 {
        let mut packets = self.steps.iter().filter(|step| step.packet.is_some());
        packets.next_back().map_or(4, |step| step.at)
    }
}

/// A legal list of up to `packets` packets and their D.
pub fn legal(random: &mut Random, numbers: &[u16; 16], packets: usize) -> Vec<Item> {
    let mut maker = Maker::new(random, numbers);
    if random.chance(8) {
        let early = random.below(LAST as usize - 4) as u32 + 4;
        let late = LAST - random.below(400) as u32;
        let at = random.pick(&[early, late]);
        maker.start(random, at);
    }
    while maker.steps.len() < packets && maker.add(random) {}
    maker.items()
}

/// A list of legal records with, now and then, one at an instant about the latest packet's or about
/// the least that the distances allow. It ends at the first that breaks a rule.
pub fn half_legal(random: &mut Random, numbers: &[u16; 16], packets: usize) -> Vec<Item> {
    let mut maker = Maker::new(random, numbers);
    let mut items = Vec::new();
    for _ in 0..packets {
        if random.below(4) > 0 && maker.add(random) {
            items = maker.items();
            continue;
        }
        let packet = (!random.chance(8)).then(|| maker.packet(random));
        let now = maker.now() + random.below(16) as u64;
        let least = packet.map_or(now, |p| rules::least(&maker.t, &maker.steps, p) + 2);
        let at = random.pick(&[now, least, least]) as u32;
        let at = at.saturating_sub(random.below(4) as u32);
        items.push(Item { at, packet });
        if !maker.push(at.into(), packet) {
            return items;
        }
    }
    items
}

/// Two writes, to one bank or to two, as early as may be, a WRA among them or not, and after them a
/// record that waiting writes may forbid, at about the least instant that the distances allow.
pub fn over_writes(random: &mut Random, numbers: &[u16; 16]) -> Vec<Item> {
    let mut maker = Maker::new(random, numbers);
    let first = random.below(32) as u32;
    let banks = [first, (first + random.pick(&[0, 2, 16, 17])) % 32];
    banks.iter().for_each(|bank| maker.send(ACT, *bank));
    let loads = random.pick(&[[WR, WR], [WR, WR], [WR, WRA], [WRA, WR]]);
    let loads = banks.iter().zip(loads);
    loads.for_each(|(bank, command)| maker.send(command, *bank));
    if random.chance(4) {
        maker.send(NOCOP, 0);
    }
    let command = random.pick(&[NOCOP, WR, RD, WRA, RDA, PRER, PRER, REFP]);
    let beside = random.pick(&[0, 0, 1, 31]);
    let bank = match command {
        NOCOP => 0,
        WR | RD | WRA | RDA => random.pick(&banks),
        _ => (random.pick(&banks) + beside) % 32,
    };
    let p = first_place(command, bank, random.pick(&[0xFFFF, 0xFFFF, 0, 3]));
    let at = rules::least(&maker.t, &maker.steps, p) as u32 + random.pick(&[0, 0, 0, 1, 80]);
    let mut items = maker.items();
    items.push(Item {
        at: at - random.pick(&[0, 0, 0, 1, 2]),
        packet: Some(p),
    });
    items
}

/// Two open banks, some packets, and a WRA or not; now and then at the end of time.
fn before_implied(random: &mut Random, maker: &mut Maker, banks: [u32; 2], late: bool) {
    if late {
        let at = u64::from(LAST) - random.below(160) as u64;
        maker.push(at, Some(first_place(ACT, banks[0], 0)));
    }
    banks.iter().for_each(|bank| maker.send(ACT, *bank));
    for _ in 0..random.below(3) {
        let command = random.pick(&[RD, WR, NOCOP, RDA, PRER]);
        let apart = if command == PRER { 5 } else { 0 };
        let bank = (random.pick(&banks) + apart) % 32;
        maker.send(command, if command == NOCOP { 0 } else { bank });
    }
    if random.chance(2) {
        maker.send(WRA, random.pick(&banks));
    }
}

/// A packet that implies a PRER or comes after one, at about the least instant that the distances allow,
/// or at that of which the PRER is at the end of time.
pub fn over_implied(random: &mut Random, numbers: &[u16; 16]) -> Vec<Item> {
    let mut maker = Maker::new(random, numbers);
    let (first, late) = (random.below(32) as u32, random.chance(4));
    let banks = [first, (first + random.pick(&[2, 16, 17])) % 32];
    before_implied(random, &mut maker, banks, late);
    let command = random.pick(&[RDA, NOCOP, NOCOP, WR, WRA, RD, ACT, PRER, REFA]);
    let bank = match command {
        NOCOP => 0,
        ACT | PRER | REFA => (random.pick(&banks) + random.pick(&[0, 1, 5, 31])) % 32,
        _ => random.pick(&banks),
    };
    let p = first_place(command, bank, 0xFFFF);
    let least = |p| rules::least(&maker.t, &maker.steps, p) as u32;
    // A WR that retires comes when a NOCOP may.
    let at = if p.writes() && random.chance(2) {
        least(p).max(least(first_place(NOCOP, 0, 0xFFFF)))
    } else {
        least(p)
    };
    let last = LAST - maker.t.offp as u32 + random.pick(&[0, 1, 2]);
    let at = if late {
        random.pick(&[at, last, last])
    } else {
        at
    };
    let mut items = maker.items();
    items.push(Item {
        at: at - random.pick(&[0, 0, 1, 1, 2, 4]),
        packet: Some(p),
    });
    items
}

/// Records of any packets, with instants that mostly rise by a little.
pub fn any_items(random: &mut Random, numbers: &[u16; 16], records: usize) -> Vec<Item> {
    let maker = Maker::new(random, numbers);
    let mut at = random.below(10) as u32;
    (0..records)
        .map(|_| {
            at = (at + random.below(24) as u32).saturating_sub(2);
            let packet = (!random.chance(6)).then(|| maker.packet(random));
            Item { at, packet }
        })
        .collect()
}

// ---- Changes ----

/// Another packet that differs in one field or in its command.
fn other_packet(random: &mut Random, numbers: &[u16; 16], p: Fields) -> Fields {
    let other = random.packet(numbers);
    let mut changed = p;
    match random.below(4) {
        0 if p.command < NOCOP => {
            (changed.command, changed.place) = (random.pick(&[ACT, PRER, REFA, REFP]), 0);
        }
        0 if p.command == NOCOP => {
            (changed.command, changed.bank) = (random.pick(&[WR, WRA]), other.bank);
        }
        0 => {
            let command = random.pick(&[NOCOP, WR, RD, WRA, RDA]);
            changed.command = command;
            if command == NOCOP {
                (changed.bank, changed.place) = (0, 0);
            }
        }
        1 if p.command != NOCOP => {
            let step = random.pick(&[1, 31, 2, other.bank]);
            changed.bank = (p.bank + step) % 32;
        }
        2 if p.command == other.command => changed.place = other.place,
        3 if p.command >= NOCOP => {
            let any = random.below(0x10000) as u32;
            changed.mask = random.pick(&[0xFFFF, 0, 3, any]);
        }
        _ => changed = other,
    }
    changed
}

fn other_instant(random: &mut Random, at: u32) -> u32 {
    let any = random.below(200) as u32;
    let moves = [
        at.wrapping_sub(1),
        at.wrapping_sub(1),
        at.wrapping_sub(2),
        at.wrapping_add(1),
        at.wrapping_sub(random.below(20) as u32),
        at.wrapping_add(random.below(20) as u32),
        any,
    ];
    random.pick(&moves)
}

/// Changes one record: its instant, packet, kind or place in the list.
pub fn change(random: &mut Random, numbers: &[u16; 16], items: &mut Vec<Item>) {
    let place = random.below(items.len());
    match random.below(10) {
        0..=4 => items[place].at = other_instant(random, items[place].at),
        5 | 6 => {
            let packet = items[place].packet;
            items[place].packet = packet.map(|p| other_packet(random, numbers, p));
        }
        7 => {
            items[place].packet = match items[place].packet {
                Some(_) if random.chance(2) => None,
                _ => Some(random.packet(numbers)),
            };
        }
        8 if place + 1 < items.len() => items.swap(place, place + 1),
        8 => drop(items.remove(place)),
        _ if random.chance(2) => items.insert(place, items[place]),
        _ => drop(items.remove(place)),
    }
}
