//! The C functions of `librdram.a`, as `rdram.h` and the headers that it includes declare them. Each slice is a pointer and a
//! length; a null pointer is allowed with length 0; the buffers of one call must not overlap.

/// The answer of [`rdram_word_encode`].
#[repr(C)]
#[derive(Clone, Copy, Debug, PartialEq, Eq)]
pub struct Word {
    /// 0, or the number of the refusal.
    pub number: u32,
    /// The word.
    pub word: u64,
}

/// The answer of [`rdram_word_decode`].
#[repr(C)]
#[derive(Clone, Copy, Debug, PartialEq, Eq)]
pub struct Packet {
    /// 0, or the number of the refusal.
    pub number: u32,
    /// 0 ACT, 1 PRER, 2 REFA, 3 REFP, 4 NOCOP, 5 WR, 6 RD, 7 WRA, 8 RDA.
    pub command: u32,
    /// The bank, or 0.
    pub bank: u32,
    /// The row or column, or 0.
    pub place: u32,
    /// The mask of a COL packet, FFFF for M = 0; else 0.
    pub mask: u32,
}

/// The answer of the calls on an index.
#[repr(C)]
#[derive(Clone, Copy, Debug, PartialEq, Eq)]
pub struct Indexed {
    /// 0, or the number of the refusal.
    pub number: u32,
    /// The broken rule, or 0.
    pub rule: u32,
    /// The block, record or word that is bad, or 0.
    pub place: u64,
    /// Words of the index, or blocks that were found.
    pub count: u64,
}

/// The answer of the calls that copy between lists and logs.
#[repr(C)]
#[derive(Clone, Copy, Debug, PartialEq, Eq)]
pub struct Copied {
    /// 0, or the number of the refusal.
    pub number: u32,
    /// The block or record that is bad, or 0.
    pub place: u64,
    /// Blocks or records that were written.
    pub count: u64,
}

/// The answer of the calls that judge a list or log, and of [`rdram_page`].
#[repr(C)]
#[derive(Clone, Copy, Debug, PartialEq, Eq)]
pub struct Judged {
    /// 0, or the number of the refusal.
    pub number: u32,
    /// The broken rule, or 0.
    pub rule: u32,
    /// The block or record that is bad, or 0.
    pub place: u64,
}

/// The answer of [`rdram_shortest`].
#[repr(C)]
#[derive(Clone, Copy, Debug, Default, PartialEq, Eq)]
pub struct Shortest {
    /// 0, or the number of the refusal.
    pub number: u32,
    /// The broken rule, or 0.
    pub rule: u32,
    /// The record that is bad, or 0.
    pub place: u64,
    /// The first record of the run, or 0.
    pub start: u64,
}

/// The answer of [`rdram_plan`].
#[repr(C)]
#[derive(Clone, Copy, Debug, PartialEq, Eq)]
pub struct Planned {
    /// 0, or the number of the refusal.
    pub number: u32,
    /// Banks that a close looked at.
    pub banks: u32,
    /// Records that were written.
    pub records: u64,
}

/// The answer of [`rdram_plan_all`].
#[repr(C)]
#[derive(Clone, Copy, Debug, PartialEq, Eq)]
pub struct PlannedAll {
    /// 0, or the number of the refusal.
    pub number: u32,
    /// Requests that were planned.
    pub place: u64,
    /// Records that were written.
    pub records: u64,
}

/// The answer of [`rdram_model_step`].
#[repr(C)]
#[derive(Clone, Copy, Debug, Default, PartialEq, Eq)]
pub struct Stepped {
    /// 0, or the number of the refusal.
    pub number: u32,
    /// The broken rule, or 0.
    pub rule: u32,
    /// 0 neither, 1 read, 2 retired.
    pub event: u32,
    /// Bytes that a retire wrote.
    pub bytes: u32,
}

/// A meter as the C functions hold it: `marks` and the newest instant.
#[repr(C)]
#[derive(Clone, Copy, Debug, PartialEq, Eq)]
pub struct Meter {
    /// Bit i of the 1,024 is 1 where an instant was accepted i cycles before the newest.
    pub marks: [u64; 16],
    /// The newest instant, or 0.
    pub newest: u64,
}

/// The answer of [`rdram_meter_count`].
#[repr(C)]
#[derive(Clone, Copy, Debug, PartialEq, Eq)]
pub struct Counted {
    /// 0, or the number of the refusal.
    pub number: u32,
    /// Cycles that carried data.
    pub count: u32,
}

/// The answer of [`rdram_meter_share`].
#[repr(C)]
#[derive(Clone, Copy, Debug, PartialEq)]
pub struct Shared {
    /// 0, or the number of the refusal.
    pub number: u32,
    /// That count over 1,024.
    pub share: f32,
}

extern "C" {
    /// The word of a packet: [`word_encode`](crate::word_encode).
    pub fn rdram_word_encode(
        settings: *const u8,
        settings_len: usize,
        command: u32,
        bank: u32,
        place: u32,
        mask: u32,
    ) -> Word;

    /// The packet of a word: [`word_decode`](crate::word_decode).
    pub fn rdram_word_decode(
        settings: *const u8,
        settings_len: usize,
        kind: u32,
        word: u64,
    ) -> Packet;

    /// A list to a log: [`log_encode`](crate::log_encode).
    pub fn rdram_log_encode(
        settings: *const u8,
        settings_len: usize,
        list: *const u8,
        list_len: usize,
        log: *mut u8,
        log_len: usize,
    ) -> Copied;

    /// A log to its list: [`log_decode`](crate::log_decode).
    pub fn rdram_log_decode(
        settings: *const u8,
        settings_len: usize,
        log: *const u8,
        log_len: usize,
        list: *mut u8,
        list_len: usize,
    ) -> Copied;

    /// A list to a log that carries its settings: [`stamped_encode`](crate::stamped_encode).
    pub fn rdram_stamped_encode(
        settings: *const u8,
        settings_len: usize,
        list: *const u8,
        list_len: usize,
        log: *mut u8,
        log_len: usize,
    ) -> Copied;

    /// Such a log to its list: [`stamped_decode`](crate::stamped_decode).
    pub fn rdram_stamped_decode(
        log: *const u8,
        log_len: usize,
        list: *mut u8,
        list_len: usize,
    ) -> Copied;

    /// Judges such a log: [`stamped_check`](crate::stamped_check).
    pub fn rdram_stamped_check(log: *const u8, log_len: usize) -> Judged;

    /// The index of such a log: [`stamped_index`](crate::stamped_index).
    pub fn rdram_stamped_index(
        log: *const u8,
        log_len: usize,
        kept: usize,
        index: *mut u8,
        index_len: usize,
    ) -> Indexed;

    /// The blocks of such a log that touch a bank: [`stamped_query`](crate::stamped_query).
    pub fn rdram_stamped_query(
        log: *const u8,
        log_len: usize,
        index: *const u8,
        index_len: usize,
        bank: u32,
        out: *mut u8,
        out_len: usize,
    ) -> Indexed;

    /// A plain log to one that carries its settings: [`log_stamp`](crate::log_stamp).
    pub fn rdram_log_stamp(
        settings: *const u8,
        settings_len: usize,
        log: *const u8,
        log_len: usize,
        out: *mut u8,
        out_len: usize,
    ) -> Copied;

    /// The way back: [`log_unstamp`](crate::log_unstamp).
    pub fn rdram_log_unstamp(
        log: *const u8,
        log_len: usize,
        out: *mut u8,
        out_len: usize,
    ) -> Copied;

    /// The index of a log: [`index_make`](crate::index_make).
    pub fn rdram_index_make(
        settings: *const u8,
        settings_len: usize,
        log: *const u8,
        log_len: usize,
        index: *mut u8,
        index_len: usize,
    ) -> Indexed;

    /// The same behind words that are in place: [`index_add`](crate::index_add).
    pub fn rdram_index_add(
        settings: *const u8,
        settings_len: usize,
        log: *const u8,
        log_len: usize,
        kept: usize,
        index: *mut u8,
        index_len: usize,
    ) -> Indexed;

    /// The blocks that touch a bank: [`index_query`](crate::index_query).
    pub fn rdram_index_query(
        settings: *const u8,
        settings_len: usize,
        log: *const u8,
        log_len: usize,
        index: *const u8,
        index_len: usize,
        bank: u32,
        out: *mut u8,
        out_len: usize,
    ) -> Indexed;

    /// Judges a log with its index: [`index_check`](crate::index_check).
    pub fn rdram_index_check(
        settings: *const u8,
        settings_len: usize,
        log: *const u8,
        log_len: usize,
        index: *const u8,
        index_len: usize,
    ) -> Indexed;

    /// The number of banks in a word of an index: [`index_banks`](crate::index_banks).
    pub fn rdram_index_banks(word: u32) -> u32;

    /// Judges a list: [`check`](crate::check()).
    pub fn rdram_check(
        settings: *const u8,
        settings_len: usize,
        list: *const u8,
        list_len: usize,
    ) -> Judged;

    /// Judges a log: [`check_log`](crate::check_log).
    pub fn rdram_check_log(
        settings: *const u8,
        settings_len: usize,
        log: *const u8,
        log_len: usize,
    ) -> Judged;

    /// The shortest run that still breaks: [`shortest`](crate::shortest()).
    pub fn rdram_shortest(
        settings: *const u8,
        settings_len: usize,
        list: *const u8,
        list_len: usize,
    ) -> Shortest;

    /// A page of the channel: [`page`](crate::page()).
    pub fn rdram_page(
        settings: *const u8,
        settings_len: usize,
        list: *const u8,
        list_len: usize,
        start: u32,
        room: *mut u8,
        room_len: usize,
    ) -> Judged;

    /// A fresh planner: [`Planner::fresh`](crate::Planner::fresh).
    pub fn rdram_planner_fresh(planner: *mut u8, planner_len: usize) -> u32;

    /// Plans a request: [`Planner::plan_bytes`](crate::Planner::plan_bytes).
    pub fn rdram_plan(
        settings: *const u8,
        settings_len: usize,
        planner: *mut u8,
        planner_len: usize,
        request: *const u8,
        request_len: usize,
        room: *mut u8,
        room_len: usize,
    ) -> Planned;

    /// Plans many requests: [`Planner::plan_all_bytes`](crate::Planner::plan_all_bytes).
    pub fn rdram_plan_all(
        settings: *const u8,
        settings_len: usize,
        planner: *mut u8,
        planner_len: usize,
        requests: *const u8,
        requests_len: usize,
        room: *mut u8,
        room_len: usize,
    ) -> PlannedAll;

    /// A fresh model: [`Model::fresh`](crate::Model::fresh).
    pub fn rdram_model_fresh(model: *mut u8, model_len: usize) -> u32;

    /// A model takes a record: [`Model::step`](crate::Model::step).
    pub fn rdram_model_step(
        settings: *const u8,
        settings_len: usize,
        model: *mut u8,
        model_len: usize,
        store: *mut u8,
        store_len: usize,
        record: *const u8,
        record_len: usize,
        answer: *mut u8,
        answer_len: usize,
    ) -> Stepped;

    /// A fresh meter: [`Meter::fresh`](crate::Meter::fresh).
    pub fn rdram_meter_fresh() -> Meter;

    /// Feeds a data instant: [`Meter::feed`](crate::Meter::feed).
    pub fn rdram_meter_feed(meter: *mut Meter, at: u32) -> u32;

    /// The busy cycles: [`Meter::count`](crate::Meter::count).
    pub fn rdram_meter_count(meter: Meter) -> Counted;

    /// Their share: [`Meter::share`](crate::Meter::share).
    pub fn rdram_meter_share(meter: Meter) -> Shared;

    /// The version as a number: [`version`](crate::version()).
    pub fn rdram_version() -> u32;
}
