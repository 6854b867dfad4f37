//! Inputs from a generator with a fixed seed.

use crate::reference::{
    self, Fields, ACT, BOUNDS, COLUMNS, CORES, DEVICE, NOCOP, RDA, ROWS, T_CAC, T_CWD,
};

/// So many rounds of a test, times `RDRAM_ROUNDS` where the environment has it: a longer run.
pub fn rounds(once: usize) -> usize {
    let times = std::env::var("RDRAM_ROUNDS").map_or(1, |times| times.parse().unwrap());
    once * times
}

/// xorshift64.
pub struct Random(u64);

impl Random {
    pub fn new(seed: u64) -> Random {
        Random(seed.wrapping_mul(0x9E37_79B9_7F4A_7C15) | 1)
    }

    pub fn word(&mut self) -> u64 {
        self.0 ^= self.0 << 13;
        self.0 ^= self.0 >> 7;
        self.0 ^= self.0 << 17;
        self.0.wrapping_mul(0x2545_F491_4F6C_DD1D)
    }

    /// A number below `n`.
    pub fn below(&mut self, n: usize) -> usize {
        ((self.word() >> 32) as usize) % n
    }

    pub fn chance(&mut self, one_in: usize) -> bool {
        self.below(one_in) == 0
    }

    pub fn pick<T: Copy>(&mut self, from: &[T]) -> T {
        from[self.below(from.len())]
    }

    pub fn bytes(&mut self, n: usize) -> Vec<u8> {
        (0..n).map(|_| self.word() as u8).collect()
    }

    /// A number from `low` to `high`, often an end.
    fn between(&mut self, low: u16, high: u16) -> u16 {
        match self.below(4) {
            0 => low,
            1 => high,
            _ => low + self.below(usize::from(high - low) + 1) as u16,
        }
    }

    /// Sixteen numbers that are valid settings.
    pub fn numbers(&mut self) -> [u16; 16] {
        let mut numbers = BOUNDS.map(|(low, high)| self.between(low, high));
        numbers[T_CWD] = self.between(1, numbers[T_CAC] - 1);
        with_core(numbers, self.pick(&CORES))
    }

    /// A packet that has a word under the settings.
    pub fn packet(&mut self, numbers: &[u16; 16]) -> Fields {
        let command = self.below(RDA as usize + 1) as u32;
        let places = match command {
            ACT => numbers[ROWS],
            command if command > NOCOP => numbers[COLUMNS],
            _ => 1,
        };
        let bank = if command == NOCOP {
            0
        } else {
            self.below(32) as u32
        };
        let mask = if command < NOCOP { 0 } else { self.mask() };
        Fields {
            command,
            bank,
            place: self.between(0, places - 1).into(),
            mask,
        }
    }

    fn mask(&mut self) -> u32 {
        let any = self.below(0x10000) as u32;
        self.pick(&[0xFFFF, 0xFFFF, any, any, 0, 3])
    }

    /// A well formed record of any instant.
    pub fn record(&mut self, numbers: &[u16; 16]) -> Vec<u8> {
        let mut record = vec![0; 32];
        let instant =
            self.pick(&[0, 3, 4, 1_000_000_000, 1_000_000_001, u32::MAX]) ^ self.below(2) as u32;
        record[..4].copy_from_slice(&instant.to_le_bytes());
        if self.chance(4) {
            record[4] = 2;
            record[16..].copy_from_slice(&self.bytes(16));
            return record;
        }
        let packet = self.packet(numbers);
        record[4] = u8::from(packet.command >= NOCOP);
        let word = reference::word_encode(&bytes(numbers), packet).expect("a packet with a word");
        record[8..16].copy_from_slice(&word.to_le_bytes());
        record
    }

    pub fn list(&mut self, numbers: &[u16; 16], records: usize) -> Vec<u8> {
        (0..records).flat_map(|_| self.record(numbers)).collect()
    }
}

/// Settings bytes of sixteen numbers.
pub fn bytes(numbers: &[u16; 16]) -> Vec<u8> {
    numbers.iter().flat_map(|n| n.to_le_bytes()).collect()
}

/// Set H of the paper with rows, columns and device; its core is split.
pub fn set_h(rows: u16, columns: u16, device: u16) -> [u16; 16] {
    let mut numbers = [28, 20, 8, 8, 8, 9, 8, 4, 4, 4, 8, 6, 4, 0, 0, 0];
    numbers[ROWS] = rows;
    numbers[COLUMNS] = columns;
    numbers[DEVICE] = device;
    numbers
}

/// Settings with a core form in the place of their own.
pub fn with_core(mut numbers: [u16; 16], core: u16) -> [u16; 16] {
    numbers[DEVICE] = numbers[DEVICE] % 256 + 256 * core;
    numbers
}
