//! The fast reader and tidier answer and leave what the clear ones do.

use crate::cases::{by_hand, generated, lists, Case};
use crate::changes;
use crate::large::large;
use crate::padding::padded_to;
use crate::reader::Setting;
use crate::show::{found, found_tidying};
use crate::tidying::{of_case, repacked, Tidying};
use std::path::Path;

fn agrees_on(cases: &[Case]) {
    for case in cases {
        for setting in Setting::BOTH {
            let clear = found(&case.stream, case.words, case.terms(setting));
            let fault = clear.fast_fault(&case.stream, &case.book);
            assert_eq!(fault, None, "{}, {setting:?}", case.what);
        }
        agrees_in_tidying(&of_case(case));
    }
}

fn agrees_in_tidying(tidyings: &[Tidying]) {
    for one in tidyings {
        let clear = found_tidying(&one.stream, one.words, one.room, one.terms());
        assert_eq!(clear.fast_fault(&one.stream, &one.book), None, "{}", one.what);
    }
}

fn real_lists() -> Vec<Case> {
    lists(&Path::new(env!("CARGO_MANIFEST_DIR")).join("lists")).unwrap()
}

#[test]
fn on_streams_by_hand() {
    agrees_on(&by_hand());
}

#[test]
fn on_generated_streams() {
    for books in [false, true] {
        agrees_on(&generated(11, 4_000, &real_lists(), books));
    }
}

#[test]
fn on_cases_of_changes() {
    agrees_on(&changes::cases(&Path::new(env!("CARGO_MANIFEST_DIR")).join("changes")).unwrap());
}

#[test]
fn on_real_lists_and_packings_of_them() {
    let lists = real_lists();
    agrees_on(&lists);
    for books in [false, true] {
        agrees_in_tidying(&repacked(11, 200, &lists, books));
    }
}

/// All prefixes of one list in the same number of bytes.
#[test]
fn on_real_lists_with_padded_prefixes() {
    for bytes in 2..=5 {
        let padded = |list: Case| Case { stream: padded_to(&list.stream, &[], bytes), ..list };
        let short = |list: &Case| list.stream.len() <= 65_536;
        agrees_on(&real_lists().into_iter().filter(short).map(padded).collect::<Vec<_>>());
    }
}

#[test]
fn on_large_streams() {
    agrees_on(&large(&real_lists()));
}

/// The longest list with a row for each byte.
#[test]
fn on_the_longest_list_whole() {
    let longest = real_lists().into_iter().max_by_key(|list| list.stream.len()).unwrap();
    let words = 8 * longest.stream.len();
    agrees_on(&[Case { words, ..longest }]);
}
