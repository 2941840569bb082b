//! Every stream written by hand gets the answer that was written beside it.

use crate::by_hand::{cases, counter_examples, Case, Outcome};
use crate::reader::Setting::{Lenient, Strict};
use crate::reader::UNTYPED_TAKEN;
use crate::{read, row_answer, row_text, tidy};

const DIRT: u32 = 0xDEAD_BEEF;

fn outcome(case: &Case) -> Outcome {
    let mut table = vec![DIRT; case.words];
    match read(&case.stream, &mut table, case.terms()) {
        Ok(rows) => {
            assert!(table[rows * 8..].iter().all(|word| *word == 0), "{}", case.what);
            Outcome::Accepted(rows)
        }
        Err(refusal) => {
            assert!(table.iter().all(|word| *word == 0), "{}", case.what);
            Outcome::Refused(refusal.number, refusal.place)
        }
    }
}

fn check_tidy(case: &Case) {
    let mut table = vec![DIRT; case.words];
    let mut out = vec![0xA5; case.out];
    let answer = tidy(&case.stream, &mut table, &mut out, case.terms());
    let mut reading = vec![0; case.words];
    let rows = read(&case.stream, &mut reading, case.terms());
    match answer {
        Ok(length) => {
            assert_eq!(table, reading, "{}", case.what);
            assert!(out[length..].iter().all(|byte| *byte == 0xA5), "{}", case.what);
        }
        Err(refusal) => {
            assert!(table.iter().all(|word| *word == 0), "{}", case.what);
            assert!(out.iter().all(|byte| *byte == 0xA5), "{}", case.what);
            assert_eq!(refusal.number == 20, rows.is_ok(), "{}", case.what);
        }
    }
    match (&case.copy, answer) {
        (None, _) => {}
        (Some(Ok(copy)), Ok(length)) => assert_eq!(*copy, out[..length], "{}", case.what),
        (Some(Err(needed)), Err(refusal)) => {
            assert_eq!((20, 0, *needed), (refusal.number, refusal.place, refusal.needed));
        }
        (wanted, found) => panic!("{}: {wanted:?} {found:?}", case.what),
    }
}

#[test]
fn counter_examples_hold() {
    let examples = counter_examples();
    assert!(examples.len() >= 14);
    for case in &examples {
        assert_eq!(outcome(case), case.reading, "{}", case.what);
        check_tidy(case);
    }
}

#[test]
fn cases_by_hand_hold() {
    let wrong: Vec<String> = cases()
        .iter()
        .filter(|case| outcome(case) != case.reading)
        .map(|case| format!("{}: {:?}, not {:?}", case.what, outcome(case), case.reading))
        .collect();
    assert!(wrong.is_empty(), "{wrong:#?}");
}

#[test]
fn tidy_copies_by_hand_hold() {
    cases().iter().for_each(check_tidy);
}

#[test]
fn every_refusal_but_the_first_occurs() {
    let mut seen = [false; 24];
    for case in cases() {
        if let Outcome::Refused(number, _) = case.reading {
            seen[number as usize] = true;
        }
        seen[20] |= matches!(case.copy, Some(Err(_)));
    }
    seen[21] = true; // Text views alone are refused with it.
    seen[23] |= !UNTYPED_TAKEN;
    assert!(seen[2..].iter().all(|seen| *seen), "{seen:?}");
}

#[test]
fn case_7_in_full() {
    let case = &counter_examples().into_iter().find(|case| case.what == "7").unwrap();
    let mut table = [0; 40];
    assert_eq!(read(&case.stream, &mut table, Strict), Ok(4));
    let rows: [u32; 32] = [
        0, 0, 17, 1, 0, 0, 2, 0, //
        16, 17, 26, 1, 0, 0, 0, 3, //
        13, 26, 28, 0, 2, 0, 0, 3, //
        11, 28, 29, 0, 0, 0, 0, 0,
    ];
    assert_eq!(table[..32], rows);
}

#[test]
fn too_large() {
    let stream = vec![0; 16_777_217];
    let mut table = [DIRT; 8];
    let refusal = read(&stream, &mut table, Strict).unwrap_err();
    assert_eq!((refusal.number, refusal.place, table), (1, 0, [0; 8]));
}

#[test]
fn text_of_rows() {
    let case = &counter_examples()[1];
    let mut table = [0; 31];
    read(&case.stream, &mut table, Strict).unwrap();
    assert_eq!(row_text(&case.stream, &table, 1, Strict), Some(&b"12E5"[..]));
    assert_eq!(row_answer(&case.stream, &table, 1, Strict), 0);
    for row in [0, 2, 3, 4, usize::MAX] {
        assert_eq!(row_answer(&case.stream, &table, row, Strict), 21);
    }
    let mut moved = table;
    moved[8 + 2] += 1;
    assert_eq!(row_text(&case.stream, &moved, 1, Strict), None);
    moved = table;
    moved[8 + 1] = u32::MAX;
    assert_eq!(row_text(&case.stream, &moved, 1, Strict), None);
    moved = table;
    moved[8 + 3] = 77;
    assert_eq!(row_text(&case.stream, &moved, 1, Strict), Some(&b"12E5"[..]));
    assert_eq!(row_text(&case.stream[..27], &table, 1, Strict), Some(&b"12E5"[..]));
    assert_eq!(row_text(&case.stream[..26], &table, 1, Strict), None);
}

/// The view's own setting decides, whatever the table was read with.
#[test]
fn text_of_padded_rows() {
    let stream = [&counter_examples()[1].stream[..22], &[0x84, 0], b"12E5", &[11]].concat();
    let mut table = [0; 31];
    assert_eq!(read(&stream, &mut table, Strict).unwrap_err().number, 7);
    assert_eq!(read(&stream, &mut table, Lenient), Ok(3));
    assert_eq!(table[8 + 2], 28);
    assert_eq!(row_text(&stream, &table, 1, Lenient), Some(&b"12E5"[..]));
    assert_eq!(row_answer(&stream, &table, 1, Lenient), 0);
    assert_eq!(row_text(&stream, &table, 1, Strict), None);
    assert_eq!(row_answer(&stream, &table, 1, Strict), 21);
    table[8 + 2] = 27;
    assert_eq!(row_answer(&stream, &table, 1, Lenient), 21);
}
