//! Settings in which the rules bear on each other in different ways, and how many of each kind were
//! seen.

use crate::random::{set_h, with_core, Random};
use crate::reference::{device_and_core, BOUNDS, COLUMNS, DEVICE, ROWS, T_CAC, T_CWD, T_OFFP};

const T_RC: usize = 0;
pub const T_RAS: usize = 1;
pub const T_RP: usize = 2;
pub const T_PP: usize = 3;
const T_RR: usize = 4;
pub const T_RCD: usize = 5;
pub const T_RTR: usize = 6;
pub const T_RDP: usize = 7;
pub const T_RTP: usize = 8;
pub const T_CC: usize = 9;

/// Valid settings in which the rules bear on each other in different ways.
pub fn rule_numbers(random: &mut Random) -> [u16; 16] {
    let mut n = random.numbers();
    let (device, core) = device_and_core(&n);
    match random.below(12) {
        0 => n = set_h(2, 4, 0),
        1 => (0..10).chain([T_OFFP]).for_each(|i| n[i] = BOUNDS[i].0),
        2 => (0..10).chain([T_OFFP]).for_each(|i| n[i] = BOUNDS[i].1),
        3 => (n[T_RC], n[T_RR]) = (4 + random.below(20) as u16, 24 + random.below(41) as u16),
        4 => (n[T_RTR], n[T_CAC], n[T_CWD]) = (4, 12, 5 + random.below(7) as u16),
        5 => (n[T_RCD], n[T_RTR]) = (4 + random.below(8) as u16, 12 + random.below(53) as u16),
        6 => (0..10).for_each(|i| n[i] = n[i].min(4 + random.below(12) as u16)),
        // Whether a WR may come beside another write, and how long two wait.
        7 => (n[T_RTR], n[T_CC]) = (random.pick(&[4, 8, 64]), random.pick(&[4, 16])),
        // What an implied PRER keeps, at the ends.
        8 | 9 => [T_RAS, T_RP, T_PP, T_RDP, T_RTP, T_OFFP]
            .into_iter()
            .for_each(|i| n[i] = random.pick(&[BOUNDS[i].0, BOUNDS[i].1])),
        _ => {}
    }
    n[DEVICE] = random.pick(&[0, 15, 16, 31, device]);
    n[ROWS] = random.pick(&[1, n[ROWS]]);
    n[COLUMNS] = random.pick(&[1, n[COLUMNS]]);
    with_core(n, core)
}

/// How many settings were of each kind that matters.
#[derive(Default)]
pub struct SettingsSeen([u64; Self::NAMES.len()]);

impl SettingsSeen {
    const NAMES: [&'static str; 27] = [
        "tRR above tRC",
        "tRTR 4",
        "tRTR 64",
        "tCC 4",
        "tCC 16",
        "tRTR below tCWD",
        "tRTR above tCWD",
        "tRCD below tRTR",
        "tOFFP 4",
        "tOFFP 32",
        "tOFFP above tCAC",
        "tOFFP from tRAS on",
        "tOFFP below tRDP",
        "tOFFP below tRTP",
        "tOFFP below tPP",
        "tRAS 64, tOFFP 4",
        "tRP 64, tOFFP 32",
        "rows 1",
        "columns 1",
        "device 0",
        "device 15",
        "device 16",
        "device 31",
        "a split core",
        "one run of banks",
        "no dependency",
        "set H",
    ];

    pub fn add(&mut self, n: &[u16; 16]) {
        let (device, core) = device_and_core(n);
        let kinds = [
            n[T_RR] > n[T_RC],
            n[T_RTR] == 4,
            n[T_RTR] == 64,
            n[T_CC] == 4,
            n[T_CC] == 16,
            n[T_RTR] < n[T_CWD],
            n[T_RTR] > n[T_CWD],
            n[T_RCD] < n[T_RTR],
            n[T_OFFP] == 4,
            n[T_OFFP] == 32,
            n[T_OFFP] > n[T_CAC],
            n[T_OFFP] >= n[T_RAS],
            n[T_OFFP] < n[T_RDP],
            n[T_OFFP] < n[T_RTP],
            n[T_OFFP] < n[T_PP],
            n[T_RAS] == 64 && n[T_OFFP] == 4,
            n[T_RP] == 64 && n[T_OFFP] == 32,
            n[ROWS] == 1,
            n[COLUMNS] == 1,
            device == 0,
            device == 15,
            device == 16,
            device == 31,
            core == 0,
            core == 1,
            core == 2,
            n[..ROWS] == set_h(1, 1, 0)[..ROWS],
        ];
        for (count, kind) in self.0.iter_mut().zip(kinds) {
            *count += u64::from(kind);
        }
    }

    /// Prints the counts; fails where one is 0.
    pub fn report(&self, name: &str) {
        let counts: Vec<String> = Self::NAMES
            .iter()
            .zip(self.0)
            .map(|(name, count)| format!("{name}: {count}"))
            .collect();
        println!("{name}: settings with {}", counts.join(", "));
        assert!(self.0.iter().all(|count| *count > 0));
    }
}
