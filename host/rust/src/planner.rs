//! The planner, which makes packets of requests.

use crate::version::debug_check;
use crate::{raw, Refusal, Request, Settings, PLANNER_BYTES, RECORD_BYTES, REQUEST_BYTES};

/// What a planner made of a request.
#[derive(Clone, Copy, Debug, PartialEq, Eq)]
pub struct Planned {
    /// Records at the start of the room.
    pub records: usize,
    /// How many banks a close looked at: the highest open bank + 1, or 0 with none open. 0 for the
    /// other requests.
    pub banks: u32,
}

impl Planned {
    /// The records, of the room that they were written to: `records` times 32 bytes. Of another room it
    /// is other bytes, and it panics where that is shorter.
    ///
    /// ```
    /// # let settings = rdram::Settings::SET_H;
    /// use rdram::{Planner, Request, RECORD_BYTES, REQUEST_RECORDS};
    /// let mut room = [0; REQUEST_RECORDS * RECORD_BYTES];
    /// let made = Planner::fresh().plan(&settings, &Request::Refresh, &mut room)?;
    /// assert_eq!(made.list(&room).len(), 2 * RECORD_BYTES); // REFA, REFP
    /// # Ok::<(), rdram::Refusal>(())
    /// ```
    pub fn list<'r>(&self, room: &'r [u8]) -> &'r [u8] {
        &room[..self.records * RECORD_BYTES]
    }
}

/// What a planner made of many requests.
#[derive(Clone, Copy, Debug, PartialEq, Eq)]
pub struct PlannedAll<'r> {
    /// The records that were made, at the start of the room.
    pub records: &'r [u8],
    /// How many requests were planned: the position, from 0, of the one that is refused, or the
    /// number of all of them.
    pub place: usize,
    /// Why the request at `place` is refused, where not all were planned.
    pub stop: Option<Refusal>,
}

/// A planner between two requests: banks, write buffer, last instants, now and refresh bank.
///
/// It is plain bytes: a copy of it is the same planner at the same point.
///
/// ```
/// # let settings = rdram::Settings::SET_H;
/// use rdram::{check, Planner, Request, RECORD_BYTES, REQUEST_RECORDS};
/// let requests = [
///     Request::Read { bank: 15, row: 0, column: 0 },
///     Request::Write { bank: 16, row: 1, column: 3, mask: 0x00FF, data: [9; 16] },
///     Request::Flush,
///     Request::Close,
/// ];
/// let (mut planner, mut list) = (Planner::fresh(), Vec::new());
/// for request in &requests {
///     let mut room = [0; REQUEST_RECORDS * RECORD_BYTES];
///     let made = planner.plan(&settings, request, &mut room)?;
///     list.extend_from_slice(made.list(&room));
/// }
/// // ACT RD, ACT WR D, NOCOP, PRER PRER
/// assert_eq!(list.len(), 8 * RECORD_BYTES);
/// assert_eq!(check(&settings, &list), Ok(()));
/// # Ok::<(), rdram::Refusal>(())
/// ```
#[derive(Clone, Debug, PartialEq, Eq)]
pub struct Planner {
    bytes: [u8; PLANNER_BYTES],
}

impl Planner {
    /// Banks closed, write buffer empty, refresh bank 0, now 4.
    ///
    /// ```
    /// assert_eq!(rdram::Planner::fresh().now(), 4);
    /// ```
    pub fn fresh() -> Planner {
        let mut bytes = [0; PLANNER_BYTES];
        // SAFETY: the pointer and the length are those of `bytes`.
        let number = unsafe { raw::rdram_planner_fresh(bytes.as_mut_ptr(), bytes.len()) };
        debug_check(number);
        Planner { bytes }
    }

    /// The planner of bytes that [`Planner::to_bytes`] gave; `rdram.h` has their layout. Any bytes
    /// are taken: [`Planner::plan`] tests them and answers [`Refusal::Settings`] for bad ones.
    pub fn from_bytes(bytes: [u8; PLANNER_BYTES]) -> Planner {
        Planner { bytes }
    }

    /// The state of the planner, to go on from later.
    ///
    /// ```
    /// use rdram::Planner;
    /// let planner = Planner::fresh();
    /// assert_eq!(Planner::from_bytes(planner.to_bytes()), planner);
    /// ```
    pub fn to_bytes(&self) -> [u8; PLANNER_BYTES] {
        self.bytes
    }

    /// The instant before which no further packet is placed: that of the latest packet, and what
    /// waits added to it.
    pub fn now(&self) -> u32 {
        let b = &self.bytes;
        let stored = u32::from_le_bytes([b[752], b[753], b[754], b[755]]);
        stored.saturating_add(3) // bytes that are no state may have any number here
    }

    /// Plans `request`: writes the records of its packets to the start of `room`, each packet at
    /// the least instant that the rules of [`check`](crate::check) allow, and answers their number,
    /// with how many banks a close looked at: it stops after the last open one. The bytes of `room` after them are unchanged. Room for [`REQUEST_RECORDS`] is enough.
    ///
    /// The records of all accepted calls from a fresh planner on, under the same settings, are a
    /// list that passes [`check`](crate::check). A write waits, alone or beside an older one, until
    /// a NOCOP, WR or WRA of a later request retires it; one that closes its bank is retired by NOCOPs of
    /// its own request.
    ///
    /// Refused, in this order, with planner and room unchanged: [`Refusal::Settings`], also for a
    /// planner of bytes that are no state; [`Refusal::Bank`], [`Refusal::Row`] and
    /// [`Refusal::Column`] for a read or write; [`Refusal::Unretired`] for a close while a write
    /// waits; [`Refusal::Horizon`] where an instant, that of an implied PRER too, would pass
    /// 1,000,000,000; [`Refusal::Full`] for a room of fewer whole records than needed.
    ///
    /// [`REQUEST_RECORDS`]: crate::REQUEST_RECORDS
    ///
    /// ```
    /// # let settings = rdram::Settings::SET_H;
    /// use rdram::{records, Planner, Refusal, Request};
    /// let (mut planner, mut room) = (Planner::fresh(), [0; 3 * 32]);
    /// let read = Request::Read { bank: 0, row: 0, column: 1 };
    /// assert_eq!(planner.plan(&settings, &read, &mut room[..63]), Err(Refusal::Full));
    /// let made = planner.plan(&settings, &read, &mut room)?;
    /// let texts = records(&settings, made.list(&room))?.map(|record| record.to_string());
    /// assert!(texts.eq(["4 ACT 0 0 -", "13 RD 0 1 -"]));
    /// // The row is open now, so RD alone.
    /// assert_eq!(planner.plan(&settings, &read, &mut room)?.records, 1);
    /// assert_eq!(planner.now(), 17);
    /// // WR and D, at full rate: tCC is 4.
    /// let write = Request::Write { bank: 0, row: 0, column: 1, mask: 3, data: [9; 16] };
    /// for now in [23, 27, 31] {
    ///     assert_eq!(planner.plan(&settings, &write, &mut room)?.records, 2);
    ///     assert_eq!(planner.now(), now);
    /// }
    /// // Two writes wait, the newer one to the place that is read: NOCOP, NOCOP, RD.
    /// assert_eq!(planner.plan(&settings, &read, &mut room)?.records, 3);
    /// // A write waits again: flush, then close. Bank 0 alone is open.
    /// assert_eq!(planner.plan(&settings, &write, &mut room)?.records, 2);
    /// assert_eq!(planner.plan(&settings, &Request::Close, &mut room), Err(Refusal::Unretired));
    /// assert_eq!(planner.plan(&settings, &Request::Flush, &mut room)?.records, 1);
    /// let closed = planner.plan(&settings, &Request::Close, &mut room)?;
    /// assert_eq!((closed.records, closed.banks), (1, 1));
    /// // A read that closes its bank: ACT, RDA. No bank is open then.
    /// let read = Request::ReadClose { bank: 0, row: 0, column: 1 };
    /// assert_eq!(planner.plan(&settings, &read, &mut room)?.records, 2);
    /// assert_eq!(planner.plan(&settings, &Request::Close, &mut [])?.banks, 0);
    /// # Ok::<(), Refusal>(())
    /// ```
    pub fn plan(
        &mut self,
        settings: &Settings,
        request: &Request,
        room: &mut [u8],
    ) -> Result<Planned, Refusal> {
        self.plan_bytes(settings, &request.to_bytes(), room)
    }

    /// [`Planner::plan`] for a request of bytes, as [`Request::to_bytes`] writes them.
    ///
    /// Refused as there, and after the settings: [`Refusal::Length`] for a request that is not 24
    /// bytes, [`Refusal::Kind`] for a kind above 7, [`Refusal::Spare`] for a byte that the kind
    /// does not use and that is not 0.
    ///
    /// ```
    /// # let settings = rdram::Settings::SET_H;
    /// use rdram::{Planner, Refusal};
    /// let mut refresh_of_bank_1 = [0; 24];
    /// refresh_of_bank_1[..2].copy_from_slice(&[2, 1]);
    /// // The planner counts the refresh banks itself.
    /// let refused = Planner::fresh().plan_bytes(&settings, &refresh_of_bank_1, &mut []);
    /// assert_eq!(refused, Err(Refusal::Spare));
    /// ```
    pub fn plan_bytes(
        &mut self,
        settings: &Settings,
        request: &[u8],
        room: &mut [u8],
    ) -> Result<Planned, Refusal> {
        let s = settings.to_bytes();
        // SAFETY: each pointer and length are those of one slice; `self` and `room` are lent by
        // `&mut`, so they overlap neither each other nor `request` nor `s`.
        let answer = unsafe {
            raw::rdram_plan(
                s.as_ptr(),
                s.len(),
                self.bytes.as_mut_ptr(),
                self.bytes.len(),
                request.as_ptr(),
                request.len(),
                room.as_mut_ptr(),
                room.len(),
            )
        };
        match answer.number {
            0 => Ok(Planned {
                records: answer.records as usize, // at most REQUEST_RECORDS
                banks: answer.banks,
            }),
            number => Err(Refusal::of_plan(number)),
        }
    }

    /// Plans `requests` one after the other, as [`Planner::plan_bytes`] would one by one: each gets
    /// what the last one left of `room`. It stops before the first that is refused, and what was
    /// planned before it stays planned. [`Request::to_bytes`] gives each request.
    ///
    /// The bytes of `room` after the records are unchanged. How many banks a close looked at is not
    /// answered.
    ///
    /// Refused, with planner and room unchanged: [`Refusal::Settings`], also for a planner of bytes
    /// that are no state. Every other refusal is a [`PlannedAll::stop`] at one request:
    /// [`Refusal::Full`] where the rest of the room has too few records for it.
    ///
    /// ```
    /// # let settings = rdram::Settings::SET_H;
    /// use rdram::{check, Planner, Refusal, Request, RECORD_BYTES};
    /// let read = |bank, row| Request::Read { bank, row, column: 0 }.to_bytes();
    /// let requests = [read(0, 0), read(4, 1), read(8, 2), read(0, 0)];
    /// let (mut planner, mut room) = (Planner::fresh(), [0; 64 * RECORD_BYTES]);
    /// let made = planner.plan_all(&settings, &requests, &mut room)?;
    /// // set H has two rows: the third read is refused, ACT RD, ACT RD are planned
    /// assert_eq!((made.place, made.stop), (2, Some(Refusal::Row)));
    /// assert_eq!(made.records.len(), 4 * RECORD_BYTES);
    /// assert_eq!(check(&settings, made.records), Ok(()));
    /// // go on behind it
    /// let made = planner.plan_all(&settings, &requests[3..], &mut room)?;
    /// assert_eq!((made.place, made.stop), (1, None));
    /// # Ok::<(), Refusal>(())
    /// ```
    pub fn plan_all<'r>(
        &mut self,
        settings: &Settings,
        requests: &[[u8; REQUEST_BYTES]],
        room: &'r mut [u8],
    ) -> Result<PlannedAll<'r>, Refusal> {
        self.plan_all_bytes(settings, requests.as_flattened(), room)
    }

    /// [`Planner::plan_all`] for the bytes of many requests, as a file has them.
    ///
    /// Refused as there, and after the settings: [`Refusal::Length`] for bytes that are not of whole
    /// requests.
    ///
    /// ```
    /// # let settings = rdram::Settings::SET_H;
    /// use rdram::{Planner, Refusal};
    /// let mut planner = Planner::fresh();
    /// assert_eq!(planner.plan_all_bytes(&settings, &[0; 25], &mut []), Err(Refusal::Length));
    /// let none = planner.plan_all_bytes(&settings, &[], &mut [])?;
    /// assert_eq!((none.place, none.stop), (0, None));
    /// # Ok::<(), Refusal>(())
    /// ```
    pub fn plan_all_bytes<'r>(
        &mut self,
        settings: &Settings,
        requests: &[u8],
        room: &'r mut [u8],
    ) -> Result<PlannedAll<'r>, Refusal> {
        let s = settings.to_bytes();
        // SAFETY: each pointer and length are those of one slice; `self` and `room` are lent by
        // `&mut`, so they overlap neither each other nor `requests` nor `s`.
        let answer = unsafe {
            raw::rdram_plan_all(
                s.as_ptr(),
                s.len(),
                self.bytes.as_mut_ptr(),
                self.bytes.len(),
                requests.as_ptr(),
                requests.len(),
                room.as_mut_ptr(),
                room.len(),
            )
        };
        let stop = match answer.number {
            0 => None,
            1 | 13 => return Err(Refusal::of_plan(answer.number)), // of the call, not of a request
            number => Some(Refusal::of_plan(number)),
        };
        Ok(PlannedAll {
            records: &room[..answer.records as usize * RECORD_BYTES],
            place: answer.place as usize,
            stop,
        })
    }
}
