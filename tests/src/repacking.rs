//! One list packed in many ways has one tidy copy, and lists that say
//! different things have different ones.

use crate::books;
use crate::generate::{damaged, list, pack, pack_with, valid, List, Random};
use crate::padding::{badly_padded, padded, padded_to};
use crate::reader::Setting::{self, Lenient, Strict};
use crate::reader::{
    prefixes, read, read_records, Detail, Items, Prefix, Record, SlotType, UNTYPED_TAKEN,
};
use crate::said;
use crate::same::same;
use crate::tidy::{copy_of, tidy};

fn copy(stream: &[u8], setting: Setting) -> Option<Vec<u8>> {
    read_records(stream, usize::MAX, setting).ok().map(|reading| copy_of(&reading))
}

fn packings(list: &List, random: &mut Random) -> Vec<Vec<u8>> {
    (0..4).map(|_| pack(list, random)).collect()
}

#[test]
fn packings_say_the_same() {
    let mut random = Random::new(11);
    for _ in 0..4000 {
        let list = list(&mut random);
        let streams = packings(&list, &mut random);
        let first = copy(&streams[0], Strict).expect("a packed list is accepted");
        for stream in &streams {
            for setting in Setting::BOTH {
                assert_eq!(copy(stream, setting).as_ref(), Some(&first), "{list:?}");
                assert!(same([&streams[0], stream], [Strict, setting]));
                assert!(same([&first, stream], [Lenient, setting]));
            }
            let padded = padded(stream, &[], &mut random);
            assert_eq!(copy(&padded, Lenient).as_ref(), Some(&first), "{list:?}");
            assert!(same([&first, &padded], [Strict, Lenient]));
            assert!(same([&padded, &streams[0]], [Lenient, Strict]));
        }
    }
}

/// Packings with a class book, each with its own, have the copy of the others,
/// and the copy is read without a book.
#[test]
fn packings_with_books_say_the_same() {
    let mut random = Random::new(22);
    let mut untyped = 0;
    for _ in 0..4000 {
        let list = list(&mut random);
        let plain = pack(&list, &mut random);
        let first = copy(&plain, Strict).expect("a packed list is accepted");
        let entries = books::made_for(&list, &mut random);
        let book = books::bytes(&entries);
        let stream = pack_with(&entries, &list, &mut random);
        let padded = padded(&stream, &book, &mut random);
        untyped += usize::from(copy(&stream, Strict).is_none());
        for (stream, setting) in [(&stream, Strict), (&stream, Lenient), (&padded, Lenient)] {
            let reading = read_records(stream, usize::MAX, setting.with(&book)).expect("accepted");
            assert_eq!(copy_of(&reading), first, "{list:?}");
            assert!(same([stream, &plain], [setting.with(&book), Strict.into()]));
            assert!(same([&first, stream], [Lenient.into(), setting.with(&book)]));
        }
    }
    assert!(untyped > 1000 || !UNTYPED_TAKEN, "{untyped}");
}

/// Of streams with a damaged book that are accepted still, some say something
/// else than before; their copies are equal exactly where they say the same.
#[test]
fn same_exactly_where_copies_are_equal_with_damaged_books() {
    let mut random = Random::new(23);
    let (mut alike, mut different, mut refused) = (0, 0, 0);
    for _ in 0..20_000 {
        let list = list(&mut random);
        let entries = books::made_for(&list, &mut random);
        let stream = pack_with(&entries, &list, &mut random);
        let all = [books::bytes(&entries), books::damaged(&entries, &mut random)];
        let terms = [Strict.with(&all[0]), Strict.with(&all[1])];
        let copies = terms.map(|terms| read_records(&stream, usize::MAX, terms));
        let [one, Ok(other)] = copies else {
            refused += 1;
            assert!(!same([&stream; 2], terms));
            continue;
        };
        let is_same = copy_of(&one.expect("accepted")) == copy_of(&other);
        assert_eq!(same([&stream; 2], terms), is_same);
        alike += usize::from(is_same);
        different += usize::from(!is_same);
    }
    assert!(alike > 100 && refused > 1000, "{alike} {refused}");
    assert!(different > 10 || !UNTYPED_TAKEN, "{different}");
}

/// Padding changes no word of a row but offset and end, and what is said not at
/// all; strict readers refuse it with 7.
#[test]
fn padded_streams_say_the_same() {
    let mut random = Random::new(18);
    let mut seen = [0; 6];
    for _ in 0..4000 {
        let whole = valid(&mut random);
        let bytes = 2 + random.below(4);
        let stream = padded_to(&whole, &[], bytes);
        let reading = read_records(&whole, usize::MAX, Strict).unwrap();
        let padded = read_records(&stream, usize::MAX, Lenient).expect("padding is taken");
        assert_eq!(said::list(&reading), said::list(&padded));
        assert_eq!(copy_of(&reading), copy_of(&padded));
        for (row, other) in reading.records.iter().zip(&padded.records) {
            let ([a, _, _, b @ ..], [c, _, _, d @ ..]) = (row.row.words(), other.row.words());
            assert_eq!((a, b), (c, d));
        }
        let longer = stream.len() - whole.len();
        assert_eq!(longer, prefixes(&whole, &[]).len() * (bytes - 1), "{whole:02X?}");
        let strict = read_records(&stream, usize::MAX, Strict);
        assert_eq!(strict.err().map(|refusal| refusal.number), (longer > 0).then_some(7));
        seen[bytes] += usize::from(longer > 0);
    }
    assert!(seen[2..].iter().all(|&seen| seen > 500), "{seen:?}");
}

/// The padded sample is the other one, its prefixes in two bytes.
#[test]
fn the_padded_sample_says_what_the_sample_says() {
    let sample = include_bytes!("../../samples/jaw.nrbf");
    let other = include_bytes!("../../samples/jaw-padded.nrbf");
    assert_eq!(padded_to(sample, &[], 2), other);
    assert!(same([sample, other], [Strict, Lenient]));
    assert!(!same([sample, other], [Lenient, Strict]));
}

/// Padded prefixes come in every record that has one, in two to five bytes.
#[test]
fn padding_leaves_nothing_out() {
    let mut random = Random::new(21);
    let mut found = std::collections::HashSet::new();
    for _ in 0..6000 {
        let stream = padded(&valid(&mut random), &[], &mut random);
        let reading = read_records(&stream, usize::MAX, Lenient).unwrap();
        for Record { row, detail } in &reading.records {
            let of_decimals =
                matches!(detail, Detail::Array(array) if matches!(array.items, Items::Decimals(_)));
            let own = row.offset as usize..row.end as usize;
            let inside = |prefix: &&Prefix| own.contains(&prefix.place.start);
            for prefix in prefixes(&stream, &[]).iter().filter(inside) {
                found.insert((row.kind, of_decimals, prefix.place.len()));
            }
        }
    }
    for bytes in 1..=5 {
        for kind in [4, 5, 6, 7, 8, 12, 32] {
            assert!(found.contains(&(kind, false, bytes)), "kind {kind}, {bytes} bytes");
        }
        for kind in [7, 15] {
            assert!(found.contains(&(kind, true, bytes)), "kind {kind}, {bytes} bytes");
        }
    }
}

/// A copy is read under both settings, with the same rows.
#[test]
fn copies_of_padded_streams_are_strict() {
    let mut random = Random::new(19);
    for _ in 0..4000 {
        let stream = padded(&valid(&mut random), &[], &mut random);
        let first = copy(&stream, Lenient).expect("padding is taken");
        let [strict, lenient] = Setting::BOTH.map(|setting| {
            let mut table = vec![0; 8 * first.len()];
            (read(&first, &mut table, setting), table)
        });
        assert!(strict.0.is_ok());
        assert_eq!(strict, lenient);
    }
}

/// A fifth byte over 7 is 7, a cut padding 2, both also where the stream would
/// end well.
#[test]
fn badly_padded_streams_are_refused() {
    let mut random = Random::new(20);
    let mut seen = [0; 20];
    for _ in 0..4000 {
        let stream = badly_padded(&valid(&mut random), &[], &mut random);
        if prefixes(&stream, &[]).is_empty() && copy(&stream, Lenient).is_some() {
            continue;
        }
        let refusal = read_records(&stream, usize::MAX, Lenient).expect_err("bad padding");
        seen[refusal.number as usize] += 1;
        assert!(read_records(&stream, usize::MAX, Strict).is_err());
    }
    assert!(seen[2] > 500 && seen[7] > 500 && seen[2] + seen[7] == seen.iter().sum(), "{seen:?}");
}

#[test]
fn tidying_twice_is_tidying_once() {
    let mut random = Random::new(12);
    for _ in 0..4000 {
        let first = copy(&valid(&mut random), Strict).expect("a packed list is accepted");
        for setting in Setting::BOTH {
            assert_eq!(copy(&first, setting).as_ref(), Some(&first));
        }
    }
}

#[test]
fn the_copy_fits_the_table() {
    let mut random = Random::new(13);
    for _ in 0..4000 {
        let stream = padded(&valid(&mut random), &[], &mut random);
        let rows = read_records(&stream, usize::MAX, Lenient).unwrap().records.len();
        let mut table = vec![0; rows * 8];
        let mut out = vec![0; 4096];
        let length = tidy(&stream, &mut table, &mut out, Lenient).unwrap();
        let copy = out[..length].to_vec();
        for setting in Setting::BOTH {
            assert_eq!(tidy(&copy, &mut table, &mut out, setting), Ok(length));
        }
    }
}

/// Damaged streams that are still accepted differ from the whole one in one
/// small thing, or in nothing that counts.
#[test]
fn same_exactly_where_copies_are_equal() {
    let mut random = Random::new(14);
    for settings in [[Strict, Strict], [Strict, Lenient], [Lenient, Lenient]] {
        let (mut alike, mut different) = (0, 0);
        for _ in 0..30_000 {
            let whole = valid(&mut random);
            let whole =
                if settings[0].is_lenient() { padded(&whole, &[], &mut random) } else { whole };
            let other = damaged(&whole, &mut random);
            let Some(other_copy) = copy(&other, settings[1]) else {
                assert!(!same([&whole, &other], settings));
                continue;
            };
            let says_same = same([&whole, &other], settings);
            let equal = copy(&whole, settings[0]) == Some(other_copy);
            assert_eq!(says_same, equal, "{whole:02X?} {other:02X?}");
            if says_same {
                alike += 1
            } else {
                different += 1
            }
        }
        assert!(alike > 150 && different > 150, "{alike} {different}");
    }
}

#[test]
fn same_on_unrelated_lists() {
    let mut random = Random::new(15);
    let streams: Vec<Vec<u8>> = (0..150).map(|_| valid(&mut random)).collect();
    for one in &streams {
        for other in &streams {
            assert_eq!(
                same([one, other], [Strict, Strict]),
                copy(one, Strict) == copy(other, Strict)
            );
        }
    }
}

/// The reader answers to anything whatever, and a table of just the rows it
/// needs makes no difference.
#[test]
fn damaged_streams_are_answered() {
    let mut random = Random::new(16);
    for _ in 0..60_000 {
        let whole = valid(&mut random);
        let whole = if random.chance(50) { padded(&whole, &[], &mut random) } else { whole };
        let stream = damaged(&whole, &mut random);
        for setting in Setting::BOTH {
            if let Ok(reading) = read_records(&stream, usize::MAX, setting) {
                let rows = reading.records.len();
                assert!(read_records(&stream, rows, setting).is_ok());
                let refusal = read_records(&stream, rows - 1, setting).unwrap_err();
                assert_eq!((refusal.number, refusal.place), (16, stream.len() - 1));
            }
        }
    }
}

/// What a record shows of the format, one word for each thing.
fn features(record: &Record) -> Vec<String> {
    let row = &record.row;
    let mut found = vec![format!("kind {}", row.kind)];
    if row.is_object() && (row.id as i32) < 0 {
        found.push("negative id".into());
    }
    if row.is_object() && row.owner > 0 {
        found.push(format!("nested {}", row.kind));
    }
    if row.kind == 12 || row.is_null_run() && row.count == 0 {
        found.push(format!("litter {}", row.kind));
    }
    if row.is_null_run() && row.count > 255 {
        found.push("long run".into());
    }
    if row.kind == 9 && row.link > row.owner + 1 {
        found.push("forward".into());
    }
    match &record.detail {
        Detail::Value(code, _) => found.push(format!("{} of code {code}", row.kind)),
        Detail::Array(array) => {
            let item = type_word(&array.item);
            found.push(format!("{} {:?} of {item}", row.kind, array.array_type));
            if row.count == 0 {
                found.push(format!("{} {:?} of none", row.kind, array.array_type));
            }
        }
        _ => {}
    }
    found
}

fn type_word(slot_type: &SlotType) -> String {
    match slot_type {
        SlotType::Primitive(code) => format!("code {code}"),
        SlotType::PrimitiveArray(_) => "primitive array".into(),
        SlotType::SystemClass(_) => "system class".into(),
        SlotType::Class(..) => "class".into(),
        other => format!("{other:?}"),
    }
}

fn wanted_features() -> Vec<String> {
    let kinds = [0, 1, 4, 5, 6, 7, 8, 9, 10, 11, 12, 13, 14, 15, 16, 17, 32];
    let codes = [1, 2, 3, 5, 6, 7, 8, 9, 10, 11, 12, 13, 14, 15, 16];
    let items = [
        "String",
        "Object",
        "system class",
        "class",
        "ObjectArray",
        "StringArray",
        "primitive array",
    ];
    let mut wanted: Vec<String> = kinds.iter().map(|kind| format!("kind {kind}")).collect();
    for code in codes {
        wanted.push(format!("8 of code {code}"));
        wanted.push(format!("32 of code {code}"));
        wanted.push(format!("15 None of code {code}"));
        wanted.push(format!("7 Some(0) of code {code}"));
    }
    for array_type in 0..3 {
        wanted.extend(items.iter().map(|item| format!("7 Some({array_type}) of {item}")));
        wanted.push(format!("7 Some({array_type}) of none"));
    }
    wanted.extend([15, 16, 17].map(|kind| format!("{kind} None of none")));
    wanted.extend([1, 4, 5, 6].map(|kind| format!("nested {kind}")));
    wanted
        .extend(["negative id", "litter 12", "litter 13", "long run", "forward"].map(String::from));
    wanted
}

#[test]
fn the_generator_leaves_nothing_out() {
    let mut random = Random::new(17);
    let mut found = std::collections::HashSet::new();
    for _ in 0..6000 {
        let stream = valid(&mut random);
        let reading = read_records(&stream, usize::MAX, Strict).unwrap();
        reading.records.iter().for_each(|record| found.extend(features(record)));
    }
    let missing: Vec<String> =
        wanted_features().into_iter().filter(|feature| !found.contains(feature)).collect();
    assert!(missing.is_empty(), "{missing:?}");
}
