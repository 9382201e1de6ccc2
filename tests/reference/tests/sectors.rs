//! The proved look-ups of the 600-record pack beside a plain search through the records written down one after another. Compiled once
//! `python3 tools/prove.py --lib sectors` has built the library.
#![cfg(sectors)]

const RECORDS: usize = 600;
const IN_RECORD: u32 = 16;
const NOT_IN_PACK: u32 = 28;

#[repr(C)]
#[derive(Debug, PartialEq)]
struct Answer {
    refusal: u32,
    result: u32,
}

#[link(name = "sectors", kind = "static")]
extern "C" {
    fn sectors_start_of(record: u32) -> Answer;
    fn sectors_record_of(sector: u32) -> Answer;
}

fn found(result: Option<u32>) -> Answer {
    match result {
        Some(result) => Answer { refusal: 0, result },
        None => Answer { refusal: NOT_IN_PACK, result: 0 },
    }
}

/// The pack written down: 100 cylinders of 100 sectors, as many whole records in each as fit.
fn written_down() -> Vec<u32> {
    let mut starts = Vec::new();
    for cylinder in 0..100 {
        let mut at = 0;
        while at + IN_RECORD <= 100 {
            starts.push(cylinder * 100 + at);
            at += IN_RECORD;
        }
    }
    assert_eq!(starts.len(), RECORDS);
    starts
}

#[test]
fn look_ups() {
    let starts = written_down();
    let searched = |sector: u32| starts.iter().position(|&start| start <= sector && sector - start < IN_RECORD);
    let numbers = (0..=70_000).chain(u32::MAX - 1_000..=u32::MAX).chain(0x7fff_ff00..0x8000_0100);
    let mut in_records = 0;
    for number in numbers {
        let record = searched(number).map(|record| record as u32);
        in_records += record.is_some() as u32;
        // the calls take any number and touch no memory of ours
        let (start_of, record_of) = unsafe { (sectors_start_of(number), sectors_record_of(number)) };
        assert_eq!(start_of, found(starts.get(number as usize).copied()), "start of {number}");
        assert_eq!(record_of, found(record), "record of {number}");
    }
    assert_eq!(in_records, RECORDS as u32 * IN_RECORD);
}
