//! The lines of records against the stored runs of the listing program, `host/runs`.

use crate::random::Random;
use rdram::{blocks, lines, log_encode, records, stamped_blocks, stamped_encode};
use rdram::{Planner, Refusal, Settings, RECORD_BYTES, REQUEST_BYTES, REQUEST_RECORDS};
use std::fs;
use std::path::PathBuf;

const SET_H: Settings = Settings::SET_H;
const MOST_BYTES: usize = 65_520;

/// The text of a run, and the list of its records.
fn listed(input: &[u8]) -> Result<(String, Vec<u8>), Refusal> {
    if input.len() % REQUEST_BYTES != 0 || input.len() > MOST_BYTES {
        return Ok(("refused 13\nrecords 0\n".into(), Vec::new()));
    }
    let (mut planner, mut text, mut list) = (Planner::fresh(), String::new(), Vec::new());
    for request in input.chunks(REQUEST_BYTES) {
        let mut room = [0; REQUEST_RECORDS * RECORD_BYTES];
        match planner.plan_bytes(&SET_H, request, &mut room) {
            Ok(made) => {
                let made = made.list(&room);
                for line in lines(records(&SET_H, made)?) {
                    text += &format!("{line}\n");
                }
                list.extend_from_slice(made);
            }
            Err(refusal) => text += &format!("refused {}\n", refusal.number()),
        }
    }
    text += &format!("records {}\n", list.len() / RECORD_BYTES);
    Ok((text, list))
}

/// The folders of the runs, with what each has as input and output.
fn runs() -> Vec<(PathBuf, Vec<u8>, String)> {
    let folder = PathBuf::from(env!("CARGO_MANIFEST_DIR")).join("../runs");
    let entries = fs::read_dir(folder).unwrap().map(|e| e.unwrap().path());
    let mut folders: Vec<PathBuf> = entries.filter(|path| path.is_dir()).collect();
    folders.sort();
    let read = |path: PathBuf| {
        let input = fs::read(path.join("stdin")).unwrap();
        let output = fs::read_to_string(path.join("stdout")).unwrap();
        (path, input, output)
    };
    folders.into_iter().map(read).collect()
}

#[test]
fn stored_runs() {
    let (mut count, mut all) = (0, 0);
    for (folder, input, output) in runs() {
        let (text, list) = listed(&input).unwrap();
        assert_eq!(text, output, "{}", folder.display());
        (count, all) = (count + 1, all + list.len() / RECORD_BYTES);
    }
    println!("{count} runs, {all} records");
    assert!(count >= 14 && all > 4000, "{count} runs, {all} records");
}

/// The lines of the whole list, and of the logs that keep it, are those of the run without its refusals.
#[test]
fn lists_and_logs() {
    for (folder, input, output) in runs() {
        let (_, list) = listed(&input).unwrap();
        let n = list.len() / RECORD_BYTES;
        let shown = output.lines().filter(|line| !line.starts_with("re"));
        let want: Vec<&str> = shown.collect();
        assert_eq!(want.len(), n);
        let found = lines(records(&SET_H, &list).unwrap());
        assert_eq!(found.len(), n);
        assert!(found.map(|line| line.to_string()).eq(want.iter().copied()));
        let mut log = vec![0; 512 * n.div_ceil(15)];
        log_encode(&SET_H, &list, &mut log).unwrap();
        let found = lines(blocks(&SET_H, &log).unwrap().flatten());
        assert!(found.map(|line| line.to_string()).eq(want.iter().copied()));
        let mut log = vec![0; 512 * n.div_ceil(14)];
        stamped_encode(&SET_H, &list, &mut log).unwrap();
        let found = lines(stamped_blocks(&log).unwrap().flatten());
        let text = found.map(|line| line.to_string());
        assert!(text.eq(want.iter().copied()), "{}", folder.display());
    }
}

/// Of any records: bank and place are those that the text shows, and a D's those of the latest WR or
/// WRA; 0 and 0 before any.
#[test]
fn fields_of_lines() {
    let random = &mut Random::new(87);
    for n in 0..200 {
        let numbers = random.numbers();
        let settings = crate::calls::typed(&crate::random::bytes(&numbers)).unwrap();
        let list = random.list(&numbers, n);
        let mut write = ("0".to_string(), "0".to_string());
        for line in lines(records(&settings, &list).unwrap()) {
            let text = line.to_string();
            let fields: Vec<&str> = text.split(' ').collect();
            let [instant, name, bank, place, mask] = fields[..] else {
                panic!("{text}");
            };
            assert_eq!(instant, line.record.instant.to_string());
            assert_eq!(
                (bank, place),
                (&*line.bank.to_string(), &*line.place.to_string())
            );
            match name {
                "WR" | "WRA" => write = (bank.into(), place.into()),
                "D" => assert_eq!((bank, place, mask), (&*write.0, &*write.1, "-")),
                _ => assert_eq!(text, line.record.to_string()),
            }
        }
    }
}
