//! Times `log_encode`, `log_decode`, `index_make` and `index_query` on 1,000,000 records, and on a list that stays in the cache,
//! by the library and by plain Rust with the same checks; then logs of both forms and the moves between them beside a memcpy of the
//! log: `bench [RECORDS [RUNS]]`.

mod common;
mod rivals;

use common::{below, best, print_head, print_row, timed, Size, SETTINGS};
use rdram::{Packet, Record, MASK_FULL};
use rivals::plain::log as plain;
use std::hint::black_box;

/// Records whose list and logs stay in the second-level cache.
const IN_CACHE: usize = 3_000;

/// Visits of rows: ACT, one to eight reads or writes with their data, NOCOP, PRER.
fn make_list(records: usize) -> Vec<u8> {
    let mut list: Vec<u8> = Vec::new();
    let (mut x, mut instant) = (0x1234_5678_9ABC_DEF1, 4);
    let record = |instant, packet| {
        let record = Record::packet(&SETTINGS, instant, packet);
        record.expect("a packet with a word").to_bytes()
    };
    let mask = MASK_FULL;
    while list.len() < 32 * records {
        let (bank, row) = (below(&mut x, 32) as u8, below(&mut x, 512) as u16);
        list.extend(record(instant, Packet::Act { bank, row }));
        for _ in 0..=below(&mut x, 8) {
            instant += 4;
            let (column, read) = (below(&mut x, 128) as u8, below(&mut x, 2) == 0);
            if read {
                list.extend(record(instant, Packet::Rd { bank, column, mask }));
            } else {
                let mask = if below(&mut x, 4) == 0 {
                    below(&mut x, 0xFFFF) as u16
                } else {
                    MASK_FULL
                };
                list.extend(record(instant, Packet::Wr { bank, column, mask }));
                let data = [below(&mut x, 256) as u8; 16];
                list.extend(Record::data(instant + 6, data).to_bytes());
            }
        }
        list.extend(record(instant + 4, Packet::Nocop { mask }));
        list.extend(record(instant + 8, Packet::Prer { bank }));
        instant += 20;
    }
    list.truncate(32 * records);
    list
}

#[inline(never)]
fn plain_encode(settings: &[u8], list: &[u8], log: &mut [u8]) -> Option<usize> {
    plain::log_encode(settings, list, log).ok()
}

#[inline(never)]
fn plain_decode(settings: &[u8], log: &[u8], list: &mut [u8]) -> Option<usize> {
    plain::log_decode(settings, log, list).ok()
}

#[inline(never)]
fn plain_index_make(settings: &[u8], log: &[u8], index: &mut [u8]) -> Result<usize, (u32, usize)> {
    plain::index_make(settings, log, index)
}

#[inline(never)]
fn plain_index_query(
    settings: &[u8],
    log: &[u8],
    index: &[u8],
    bank: u32,
    out: &mut [u8],
) -> Result<usize, (u32, usize)> {
    plain::index_query(settings, log, index, bank, out)
}

fn measure(records: usize, runs: usize) {
    let (blocks, stream) = (records.div_ceil(15), format!("{records} records"));
    let settings = SETTINGS.to_bytes();
    let list = make_list(records);
    let (mut log, mut plain_log) = (vec![1; 512 * blocks], vec![1; 512 * blocks]);
    let (mut back, mut plain_back) = (vec![1; 32 * records], vec![1; 32 * records]);

    let [library, plain] = best(
        records,
        runs,
        [
            &mut || {
                vec![timed(|| {
                    rdram::log_encode(&SETTINGS, black_box(&list), &mut log)
                })]
            },
            &mut || {
                vec![timed(|| {
                    plain_encode(&settings, black_box(&list), &mut plain_log)
                })]
            },
        ],
    );
    assert!(log == plain_log, "other logs");
    print_row("`rdram_log_encode`", &stream, library, plain, None);

    let [library, plain] = best(
        records,
        runs,
        [
            &mut || {
                vec![timed(|| {
                    rdram::log_decode(&SETTINGS, black_box(&log), &mut back)
                })]
            },
            &mut || {
                vec![timed(|| {
                    plain_decode(&settings, black_box(&log), &mut plain_back)
                })]
            },
        ],
    );
    assert!(back == list && plain_back == list, "other records");
    print_row("`rdram_log_decode`", &stream, library, plain, None);
    measure_index(&log, records, runs, &stream);
}

fn measure_index(log: &[u8], records: usize, runs: usize, stream: &str) {
    let settings = SETTINGS.to_bytes();
    let (mut index, mut plain_index) = (vec![1; log.len() / 128], vec![1; log.len() / 128]);
    let [library, plain] = best(
        records,
        runs,
        [
            &mut || {
                vec![timed(|| {
                    rdram::index_make(&SETTINGS, black_box(log), &mut index)
                })]
            },
            &mut || {
                vec![timed(|| {
                    plain_index_make(&settings, black_box(log), &mut plain_index)
                })]
            },
        ],
    );
    assert!(index == plain_index, "other words");
    print_row("`rdram_index_make`", stream, library, plain, None);

    let (mut found, mut plain_found) = (vec![1; index.len()], vec![1; index.len()]);
    let [library, plain] = best(
        records,
        runs,
        [
            &mut || {
                vec![timed(|| {
                    rdram::index_query(&SETTINGS, black_box(log), &index, 7, &mut found)
                })]
            },
            &mut || {
                vec![timed(|| {
                    plain_index_query(&settings, black_box(log), &index, 7, &mut plain_found)
                })]
            },
        ],
    );
    assert!(found == plain_found, "other blocks");
    print_row("`rdram_index_query`", stream, library, plain, None);
}

/// Times a call that reads or writes a log beside a memcpy of the log's bytes.
fn beside_memcpy(
    call: &str,
    records: usize,
    runs: usize,
    log: &[u8],
    work: &mut dyn FnMut() -> bool,
) {
    let mut copy = vec![1; log.len()];
    let [library, memcpy] = best(
        records,
        runs,
        [
            &mut || vec![timed(|| assert!(work(), "refused"))],
            &mut || vec![timed(|| copy.copy_from_slice(black_box(log)))],
        ],
    );
    let call = format!("`{call}` beside memcpy");
    print_row(&call, &format!("{records} records"), library, memcpy, None);
}

fn measure_forms(records: usize, runs: usize) {
    let list = make_list(records);
    let (blocks, stamped_blocks) = (records.div_ceil(15), records.div_ceil(14));
    let (mut log, mut stamped) = (vec![1; 512 * blocks], vec![1; 512 * stamped_blocks]);
    let mut back = vec![1; 32 * records];
    let mut moved = vec![1; 512 * stamped_blocks];
    rdram::log_encode(&SETTINGS, &list, &mut log).expect("a list");
    rdram::stamped_encode(&SETTINGS, &list, &mut stamped).expect("a list");

    beside_memcpy("rdram_log_encode", records, runs, &log, &mut || {
        rdram::log_encode(&SETTINGS, black_box(&list), &mut moved).is_ok()
    });
    assert!(moved[..log.len()] == log, "other blocks");
    beside_memcpy("rdram_log_decode", records, runs, &log, &mut || {
        rdram::log_decode(&SETTINGS, black_box(&log), &mut back).is_ok()
    });
    beside_memcpy("rdram_stamped_encode", records, runs, &stamped, &mut || {
        rdram::stamped_encode(&SETTINGS, black_box(&list), &mut moved).is_ok()
    });
    beside_memcpy("rdram_stamped_decode", records, runs, &stamped, &mut || {
        rdram::stamped_decode(black_box(&stamped), &mut back).is_ok()
    });
    assert!(back == list, "other records");
    beside_memcpy("rdram_log_stamp", records, runs, &stamped, &mut || {
        rdram::log_stamp(&SETTINGS, black_box(&log), &mut moved).is_ok()
    });
    assert!(moved == stamped, "another stamped log");
    beside_memcpy("rdram_log_unstamp", records, runs, &stamped, &mut || {
        rdram::log_unstamp(black_box(&stamped), &mut moved).is_ok()
    });
    assert!(moved[..log.len()] == log, "another log");
}

fn main() {
    let size = Size::from_arguments(1_000_000, 21);
    print_head();
    measure(size.count, size.runs);
    if size.count > IN_CACHE {
        measure(IN_CACHE, 100 * size.runs);
    }
    // not among the instructions that are counted, which are of fewer records
    if size.count >= 1_000_000 {
        measure_forms(size.count, size.runs);
    }
}
