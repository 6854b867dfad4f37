//! Settings: timings, size, device number and core form.

use crate::{check, part, Refusal, SETTINGS_BYTES};

/// Which banks of a device are neighbours. Neighbours share sense amps: before an ACT or a refresh
/// the bank and its neighbours are closed, and a PRER to a bank closes its open neighbours too.
///
/// ```
/// use rdram::{Core, Planner, Request, Settings};
/// // After a read of bank 15, one of bank 16 closes bank 15 where the two are neighbours.
/// for (core, records) in [(Core::Split, 2), (Core::OneRun, 3), (Core::Independent, 2)] {
///     let settings = Settings { core, ..Settings::SET_H };
///     let (mut planner, mut room) = (Planner::fresh(), [0; 96]);
///     let read = |bank| Request::Read { bank, row: 0, column: 0 };
///     planner.plan(&settings, &read(15), &mut room)?;
///     assert_eq!(planner.plan(&settings, &read(16), &mut room)?.records, records);
/// }
/// # Ok::<(), rdram::Refusal>(())
/// ```
#[derive(Clone, Copy, Debug, Default, PartialEq, Eq)]
pub enum Core {
    /// Form 0: two runs of 16 banks. Banks whose numbers differ by 1 are neighbours, but for 15 and
    /// 16.
    #[default]
    Split = 0,
    /// Form 1: one run of 32 dependent banks. Banks whose numbers differ by 1 are neighbours.
    OneRun = 1,
    /// Form 2: no dependency. No bank has a neighbour, so that all 32 may be open at once.
    Independent = 2,
}

/// Timings in cycles, the size of the device, its number and its core form.
///
/// The nine timings from `t_rc` to `t_rtp` are 4 to 64, `t_cc` 4 to 16, `t_cac` 7 to 12, `t_cwd`
/// 1 to `t_cac` − 1, `t_offp` 4 to 32, `rows` 1 to 512, `columns` 1 to 128 and `device` 0 to 31. Every call tests
/// this and answers [`Refusal::Settings`] otherwise: correct the figure that is out of its range.
/// [`Settings::check`] tests it alone.
///
/// A planner, a model and a list go on under the settings that they were made with, the core form
/// included: a state may be one under one form and none under another.
#[derive(Clone, Copy, Debug, PartialEq, Eq)]
pub struct Settings {
    /// From an ACT to the next of the same or a neighbour bank.
    pub t_rc: u16,
    /// From an ACT to a PRER of the same or a neighbour bank.
    pub t_ras: u16,
    /// From a PRER to an ACT of the same or a neighbour bank.
    pub t_rp: u16,
    /// From a PRER to the next, of any bank.
    pub t_pp: u16,
    /// From an ACT to the next of a bank that is neither the same nor a neighbour.
    pub t_rr: u16,
    /// From an ACT to an RD or a retire in its bank.
    pub t_rcd: u16,
    /// From a WR to its retire.
    pub t_rtr: u16,
    /// From an RD to a PRER of the same or a neighbour bank.
    pub t_rdp: u16,
    /// From a retire to a PRER of the same or a neighbour bank.
    pub t_rtp: u16,
    /// From a COL packet to the next.
    pub t_cc: u16,
    /// From an RD to its data.
    pub t_cac: u16,
    /// From a WR to its data.
    pub t_cwd: u16,
    /// From an RDA, or the retire of a WRA, to the PRER that it implies.
    pub t_offp: u16,
    /// Rows of a bank.
    pub rows: u16,
    /// Columns of a row.
    pub columns: u16,
    /// The number of the device on its channel.
    pub device: u8,
    /// Which banks are neighbours.
    pub core: Core,
}

impl Settings {
    /// Set H of document 01, with which the examples run; its core is split.
    pub const SET_H: Settings = Settings {
        t_rc: 28,
        t_ras: 20,
        t_rp: 8,
        t_pp: 8,
        t_rr: 8,
        t_rcd: 9,
        t_rtr: 8,
        t_rdp: 4,
        t_rtp: 4,
        t_cc: 4,
        t_cac: 8,
        t_cwd: 6,
        t_offp: 4,
        rows: 2,
        columns: 4,
        device: 0,
        core: Core::Split,
    };

    /// The settings as the library reads them: sixteen numbers, low byte first.
    ///
    /// ```
    /// use rdram::{Core, Settings};
    /// let settings = Settings { rows: 512, device: 7, core: Core::OneRun, ..Settings::SET_H };
    /// let bytes = settings.to_bytes();
    /// assert_eq!(bytes[..4], [28, 0, 20, 0]);
    /// assert_eq!(bytes[24..], [4, 0, 0, 2, 4, 0, 7, 1]); // tOFFP, rows, columns, device, core form
    /// ```
    pub fn to_bytes(&self) -> [u8; SETTINGS_BYTES] {
        #[rustfmt::skip]
        let figures = [
            self.t_rc, self.t_ras, self.t_rp, self.t_pp, self.t_rr, self.t_rcd, self.t_rtr,
            self.t_rdp, self.t_rtp, self.t_cc, self.t_cac, self.t_cwd, self.t_offp, self.rows,
            self.columns,
            u16::from_le_bytes([self.device, self.core as u8]),
        ];
        let mut bytes = [0; SETTINGS_BYTES];
        for (pair, figure) in bytes.chunks_exact_mut(2).zip(figures) {
            pair.copy_from_slice(&figure.to_le_bytes());
        }
        bytes
    }

    /// The settings of 32 bytes, as [`Settings::to_bytes`] writes them and a stamped log carries them.
    ///
    /// # Errors
    ///
    /// [`Refusal::Settings`] for a figure that is outside its range.
    ///
    /// ```
    /// use rdram::{Refusal, Settings};
    /// let mut bytes = Settings::SET_H.to_bytes();
    /// assert_eq!(Settings::from_bytes(&bytes), Ok(Settings::SET_H));
    /// bytes[31] = 3; // no core form
    /// assert_eq!(Settings::from_bytes(&bytes), Err(Refusal::Settings));
    /// ```
    pub fn from_bytes(bytes: &[u8; SETTINGS_BYTES]) -> Result<Settings, Refusal> {
        let figure = |i: usize| u16::from_le_bytes(part(bytes, 2 * i));
        let core = match bytes[31] {
            0 => Core::Split,
            1 => Core::OneRun,
            2 => Core::Independent,
            _ => return Err(Refusal::Settings),
        };
        let settings = Settings {
            t_rc: figure(0),
            t_ras: figure(1),
            t_rp: figure(2),
            t_pp: figure(3),
            t_rr: figure(4),
            t_rcd: figure(5),
            t_rtr: figure(6),
            t_rdp: figure(7),
            t_rtp: figure(8),
            t_cc: figure(9),
            t_cac: figure(10),
            t_cwd: figure(11),
            t_offp: figure(12),
            rows: figure(13),
            columns: figure(14),
            device: bytes[30],
            core,
        };
        settings.check().map(|()| settings)
    }

    /// Tests that each figure is in its range.
    ///
    /// # Errors
    ///
    /// [`Refusal::Settings`] where one is not.
    ///
    /// ```
    /// use rdram::{Refusal, Settings};
    /// assert_eq!(Settings::SET_H.check(), Ok(()));
    /// let settings = Settings { t_cwd: 8, ..Settings::SET_H }; // tCAC is 8
    /// assert_eq!(settings.check(), Err(Refusal::Settings));
    /// ```
    pub fn check(&self) -> Result<(), Refusal> {
        check(self, &[])
    }

    /// The length of a [`Model`](crate::Model)'s store: rows × columns × 512.
    pub fn store_bytes(&self) -> usize {
        // At most 33,554,432 for settings that are not refused.
        let dualocts = usize::from(self.rows).saturating_mul(self.columns.into());
        dualocts.saturating_mul(512)
    }
}
