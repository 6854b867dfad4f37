//! What whole runs did, counted.

/// What runs did.
#[derive(Default)]
pub struct Seen {
    pub runs: u64,
    /// Plan calls that were accepted, by kind, and those that were refused, by number.
    pub accepted: [u64; 8],
    pub refused: [u64; 16],
    pub records: u64,
    pub reads: u64,
    /// Model calls that were refused 8.
    pub full: u64,
    pub retires: u64,
    /// The bytes that retires wrote.
    pub written: u64,
    /// Flushes by the number of writes that waited before them.
    pub flushed: [u64; 3],
    /// Turns of REFR from rows - 1 to 0.
    pub refr_again: u64,
}

impl Seen {
    pub fn report(&self, name: &str) {
        let [read, write, refresh, wait, flush, close, read_close, write_close] = self.accepted;
        println!(
            "{name}: {} runs; accepted: {read} read, {write} write, {refresh} refresh, {wait} wait, \
             {flush} flush, {close} close, {read_close} read and close, {write_close} write and close; \
             refused, by number: {:?}",
            self.runs, self.refused
        );
        println!(
            "{name}: {} records, {} reads, {} calls refused 8, {} retires of {} bytes, {:?} writes \
             before flushes, REFR started again {} times",
            self.records,
            self.reads,
            self.full,
            self.retires,
            self.written,
            self.flushed,
            self.refr_again
        );
        assert_eq!(self.reads, read + read_close);
        assert_eq!(self.retires, write + write_close);
    }

    /// Fails unless each of these was seen.
    pub fn all(&self, refusals: &[usize]) {
        assert!(self.accepted.iter().all(|n| *n > 0), "{:?}", self.accepted);
        assert!(
            refusals.iter().all(|n| self.refused[*n] > 0),
            "{:?}",
            self.refused
        );
        for count in [self.full, self.written, self.refr_again] {
            assert!(count > 0);
        }
        assert!(self.flushed.iter().all(|n| *n > 0), "{:?}", self.flushed);
    }
}
