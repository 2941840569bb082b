//! The safe functions on the counter examples of the rules: what comes back, and what is left in the lent memory.

use strelinga::Setting::{Lenient, Strict};
use strelinga::{
    read, row_question, rows, say_the_same, text, tidy, List, NotCompared, Refusal, Refused,
    RowKind, TidyError, ROW_WORDS, STREAM_LIMIT,
};

/// The header with RootId and HeaderId.
fn header(root: i32, id: i32) -> Vec<u8> {
    [&[0][..], &root.to_le_bytes(), &id.to_le_bytes(), &1i32.to_le_bytes(), &0i32.to_le_bytes()]
        .concat()
}

/// A string record with the text 12E5.
fn string(id: i32) -> Vec<u8> {
    [&[6][..], &id.to_le_bytes(), b"\x0412E5"].concat()
}

/// An object array of so many slots, as object 1.
fn array(slots: i32) -> Vec<u8> {
    [&[16][..], &1i32.to_le_bytes(), &slots.to_le_bytes()].concat()
}

fn list(body: &[u8]) -> Vec<u8> {
    [&header(1, 1)[..], body].concat()
}

/// Case 2: H S 0B.
fn case_2() -> Vec<u8> {
    list(&[&string(1)[..], &[11]].concat())
}

/// Case 12: 256 nulls in 30 bytes, whose tidy copy has 32.
fn case_12() -> Vec<u8> {
    list(&[&array(256)[..], &[13, 255, 10, 11]].concat())
}

fn table() -> Vec<u32> {
    vec![9; 16 * ROW_WORDS]
}

/// What a refused reading answers, after a look at the table: all of it is zero.
fn refusal(stream: &[u8]) -> (Refusal, usize) {
    let mut table = table();
    let e = read(stream, &[], &mut table, Strict).expect_err("refused");
    assert!(table.iter().all(|word| *word == 0));
    (e.refusal, e.place)
}

#[test]
fn the_text_12e5_is_text() {
    let stream = case_2();
    let mut table = table();
    assert_eq!(read(&stream, &[], &mut table, Strict), Ok(3));
    let kinds: Vec<_> = rows(&table).map(|row| row.kind()).collect();
    assert_eq!(kinds, [RowKind::Header, RowKind::String, RowKind::End]);
    assert_eq!(text(&stream, &table, 1, Strict), Some(&b"12E5"[..]));
    assert_eq!(row_question(&stream, &table, 1, Strict), Ok(()));
    for row in [0, 2, 3, 16, usize::MAX] {
        assert_eq!(text(&stream, &table, row, Strict), None);
        assert_eq!(row_question(&stream, &table, row, Strict), Err(Refusal::NoSuchRow));
    }
    assert!(table[3 * ROW_WORDS..].iter().all(|word| *word == 0));
}

#[test]
fn the_text_outlives_the_table() {
    let stream = case_2();
    let shown = {
        let mut table = table();
        read(&stream, &[], &mut table, Strict).expect("accepted");
        text(&stream, &table, 1, Strict)
    };
    assert_eq!(shown, Some(&b"12E5"[..]));
}

#[test]
fn an_empty_text_is_some() {
    let stream = list(b"\x06\x01\0\0\0\0\x0B");
    let mut table = table();
    assert_eq!(read(&stream, &[], &mut table, Strict), Ok(3));
    assert_eq!(text(&stream, &table, 1, Strict), Some(&[][..]));
}

#[test]
fn a_null_run_is_one_row() {
    let stream = list(&[&array(3)[..], &[13, 3, 11]].concat());
    let mut table = table();
    assert_eq!(read(&stream, &[], &mut table, Strict), Ok(4));
    let words: Vec<_> = rows(&table).map(|row| *row.words()).collect();
    assert_eq!(
        words,
        [
            [0, 0, 17, 1, 0, 0, 2, 0],
            [16, 17, 26, 1, 0, 0, 0, 3],
            [13, 26, 28, 0, 2, 0, 0, 3],
            [11, 28, 29, 0, 0, 0, 0, 0]
        ]
    );
    let run = rows(&table).nth(2).expect("the run");
    assert_eq!((run.kind(), run.offset(), run.end()), (RowKind::ShortNullRun, 26, 28));
    assert_eq!(
        (run.owner(), run.slot(), run.link(), run.count(), run.id()),
        (Some(1), 0, None, 3, 0)
    );
    assert_eq!(rows(&table).next().and_then(|row| row.link()), Some(1));
}

#[test]
fn refusals_have_a_place_and_leave_zeros() {
    assert_eq!(refusal(&[]), (Refusal::CutShort, 0));
    assert_eq!(refusal(&list(&string(1))), (Refusal::CutShort, 27));
    assert_eq!(refusal(&[&case_2()[..], &[0]].concat()), (Refusal::Trailing, 28));
    assert_eq!(refusal(&[&header(2, 1)[..], &string(1), &[11]].concat()), (Refusal::NoRoot, 0));
    assert_eq!(refusal(&list(b"\x06\x01\0\0\0\x84\0")), (Refusal::BadLength, 17));
    assert_eq!(refusal(&list(&[&array(3)[..], &[13, 4]].concat())), (Refusal::BadCount, 26));
    assert_eq!(refusal(&list(&[&array(3)[..], &[13, 0, 11]].concat())), (Refusal::WrongPlace, 28));
    assert_eq!(
        refusal(&list(&[&array(1)[..], &[9, 5, 0, 0, 0, 11]].concat())),
        (Refusal::NoObject, 26)
    );
    assert_eq!(
        refusal(&list(&[&array(1)[..], &[8, 5], b"\x0412E5"].concat())),
        (Refusal::BadValue, 26)
    );
    assert_eq!(refusal(&vec![0; STREAM_LIMIT + 1]), (Refusal::TooLarge, 0));
}

#[test]
fn a_table_of_two_rows_has_no_room_for_three() {
    let mut table = [9; 16];
    let e = Refused { refusal: Refusal::NoRoom, place: 27 };
    assert_eq!(read(&case_2(), &[], &mut table, Strict), Err(e));
    assert_eq!(table, [0; 16]);
    assert_eq!(rows(&table).count(), 0);
    assert_eq!(
        read(&case_2(), &[], &mut [], Strict),
        Err(Refused { refusal: Refusal::NoRoom, place: 0 })
    );
}

#[test]
fn a_tidy_copy_tidied_again_is_unchanged() {
    let stream = [&header(7, -1)[..], &string(7), &[11]].concat();
    let (mut table, mut out, mut again) = (table(), [9; 40], [9; 40]);
    assert_eq!(tidy(&stream, &[], &mut table, &mut out, Strict), Ok(28));
    assert_eq!(out[..28], case_2());
    assert_eq!(out[28..], [9; 12]);
    assert_eq!(rows(&table).count(), 3);
    assert_eq!(tidy(&out[..28], &[], &mut table, &mut again, Strict), Ok(28));
    assert_eq!(out, again);
}

#[test]
fn an_output_one_byte_too_short_tells_the_needed_length() {
    let (stream, mut table, mut out) = (case_12(), table(), [9; 32]);
    assert_eq!(stream.len(), 30);
    assert_eq!(
        tidy(&stream, &[], &mut table, &mut out[..31], Strict),
        Err(TidyError::OutFull { needed: 32 })
    );
    assert_eq!(out, [9; 32]);
    assert!(table.iter().all(|word| *word == 0));
    assert_eq!(tidy(&stream, &[], &mut table, &mut out, Strict), Ok(32));
    assert_eq!(rows(&table).count(), 5);
}

#[test]
fn a_refused_tidying_leaves_the_output() {
    let (mut table, mut out) = (table(), [9; 40]);
    let e = tidy(&list(&string(1)), &[], &mut table, &mut out, Strict).expect_err("refused");
    assert_eq!(e, TidyError::Refused(Refused { refusal: Refusal::CutShort, place: 27 }));
    assert_eq!(out, [9; 40]);
    assert!(table.iter().all(|word| *word == 0));
}

/// Both lists read strictly and without a book.
fn plainly(
    a: &[u8],
    b: &[u8],
    table: &mut [u32],
    first: &mut [u8],
    second: &mut [u8],
) -> Result<bool, NotCompared> {
    say_the_same(a, &[], b, &[], table, first, second, Strict, Strict)
}

#[test]
fn lists_are_compared_by_what_they_say() {
    let sevens = [&header(7, 7)[..], &string(7), &[11]].concat();
    let (mut table, mut first, mut second) = (table(), [9; 40], [9; 40]);
    assert_eq!(plainly(&case_2(), &sevens, &mut table, &mut first, &mut second), Ok(true));
    assert_eq!(first, second);
    assert_eq!(rows(&table).count(), 3);
    assert_eq!(plainly(&case_2(), &case_12(), &mut table, &mut first, &mut second), Ok(false));
    assert_eq!(rows(&table).count(), 5);
}

#[test]
fn the_list_that_is_not_compared_is_named() {
    let (mut table, mut first, mut second) = (table(), [9; 40], [9; 40]);
    let cut = TidyError::Refused(Refused { refusal: Refusal::CutShort, place: 0 });
    let e = plainly(&[], &case_2(), &mut table, &mut first, &mut second);
    assert_eq!(e, Err(NotCompared { list: List::First, error: cut }));
    assert_eq!((first, second), ([9; 40], [9; 40]));
    let e = plainly(&case_2(), &[], &mut table, &mut first, &mut second);
    assert_eq!(e, Err(NotCompared { list: List::Second, error: cut }));
    assert_eq!((&first[..28], second), (&case_2()[..], [9; 40]));
    let e = plainly(&case_2(), &case_12(), &mut table, &mut first, &mut second[..31]);
    assert_eq!(
        e,
        Err(NotCompared { list: List::Second, error: TidyError::OutFull { needed: 32 } })
    );
    assert!(table.iter().all(|word| *word == 0));
}

/// Case 2 with the text's length in two bytes.
fn padded() -> Vec<u8> {
    list(b"\x06\x01\0\0\0\x84\x0012E5\x0B")
}

#[test]
fn a_padded_prefix_is_read_leniently() {
    let (stream, mut table) = (padded(), table());
    let bad_length = Refused { refusal: Refusal::BadLength, place: 17 };
    assert_eq!(read(&stream, &[], &mut table, Strict), Err(bad_length));
    assert_eq!(read(&stream, &[], &mut table, Lenient), Ok(3));
    assert_eq!(rows(&table).nth(1).map(|row| row.end()), Some(28));
    assert_eq!(read(&case_2(), &[], &mut table, Lenient), Ok(3));
    assert_eq!(rows(&table).nth(1).map(|row| row.end()), Some(27));
    let fifth = list(b"\x06\x01\0\0\0\x84\x80\x80\x80\x08");
    assert_eq!(read(&fifth, &[], &mut table, Lenient), Err(bad_length));
}

#[test]
fn a_view_has_a_setting_of_its_own() {
    let (stream, mut table) = (padded(), table());
    assert_eq!(read(&stream, &[], &mut table, Lenient), Ok(3));
    assert_eq!(text(&stream, &table, 1, Lenient), Some(&b"12E5"[..]));
    assert_eq!(row_question(&stream, &table, 1, Lenient), Ok(()));
    assert_eq!(text(&stream, &table, 1, Strict), None);
    assert_eq!(row_question(&stream, &table, 1, Strict), Err(Refusal::NoSuchRow));
}

#[test]
fn a_tidy_copy_has_the_shortest_prefixes() {
    let (mut table, mut out) = (table(), [9; 40]);
    assert_eq!(tidy(&padded(), &[], &mut table, &mut out, Lenient), Ok(28));
    assert_eq!(out[..28], case_2());
    let bad_length = Refused { refusal: Refusal::BadLength, place: 17 };
    let e = tidy(&padded(), &[], &mut table, &mut out, Strict);
    assert_eq!(e, Err(TidyError::Refused(bad_length)));
}

#[test]
fn each_list_is_compared_under_its_own_setting() {
    let (mut table, mut first, mut second) = (table(), [9; 40], [9; 40]);
    let (a, b) = (case_2(), padded());
    let bad_length = TidyError::Refused(Refused { refusal: Refusal::BadLength, place: 17 });
    let mut compared = |a: &[u8], b: &[u8], a_setting, b_setting| {
        let (none, first, second) = (&[], &mut first, &mut second);
        say_the_same(a, none, b, none, &mut table, first, second, a_setting, b_setting)
    };
    assert_eq!(compared(&a, &b, Strict, Lenient), Ok(true));
    assert_eq!(compared(&b, &a, Lenient, Strict), Ok(true));
    let of_first = NotCompared { list: List::First, error: bad_length };
    assert_eq!(compared(&b, &a, Strict, Lenient), Err(of_first));
    let of_second = NotCompared { list: List::Second, error: bad_length };
    assert_eq!(compared(&a, &b, Lenient, Strict), Err(of_second));
}

/// System class A with the member x, an Int32.
const BOOK: &[u8] = b"\0\x01A\x01\x01x\0\x08";

/// The same and an entry that begins with 2.
const BAD_BOOK: &[u8] = b"\0\x01A\x01\x01x\0\x08\x02";

#[test]
fn a_book_is_judged_before_the_stream() {
    let bad = Refused { refusal: Refusal::BadBook, place: 8 };
    let (mut table, mut out) = (table(), [9; 40]);
    for setting in [Strict, Lenient] {
        assert_eq!(read(&case_2(), BOOK, &mut table, setting), Ok(3));
        assert_eq!(read(&case_2(), BAD_BOOK, &mut table, setting), Err(bad));
        assert!(table.iter().all(|word| *word == 0));
        assert_eq!(read(&[], BAD_BOOK, &mut table, setting), Err(bad));
        let e = tidy(&case_2(), BAD_BOOK, &mut table, &mut out, setting);
        assert_eq!(e, Err(TidyError::Refused(bad)));
        assert_eq!(out, [9; 40]);
    }
    let e = read(&vec![0; STREAM_LIMIT + 1], BAD_BOOK, &mut table, Strict);
    assert_eq!(e, Err(Refused { refusal: Refusal::TooLarge, place: 0 }));
    assert_eq!(bad.to_string(), "22 BAD BOOK at 8 of the book");
}

#[test]
fn each_list_is_compared_with_its_own_book() {
    let (mut table, mut first, mut second) = (table(), [9; 40], [9; 40]);
    let (list, bad) = (case_2(), Refused { refusal: Refusal::BadBook, place: 8 });
    let mut compared = |a_book: &[u8], b_book: &[u8]| {
        let (first, second) = (&mut first, &mut second);
        say_the_same(&list, a_book, &list, b_book, &mut table, first, second, Strict, Strict)
    };
    assert_eq!(compared(BOOK, &[]), Ok(true));
    let error = TidyError::Refused(bad);
    assert_eq!(compared(BAD_BOOK, BAD_BOOK), Err(NotCompared { list: List::First, error }));
    assert_eq!(compared(BOOK, BAD_BOOK), Err(NotCompared { list: List::Second, error }));
}

#[test]
fn numbers_and_names_belong_together() {
    for (place, refusal) in Refusal::NAMED.into_iter().enumerate() {
        assert_eq!(refusal.number() as usize, place + 1);
        assert_eq!(Refusal::from_number(refusal.number()), refusal);
    }
    for number in [0, 23, u32::MAX] {
        assert_eq!(Refusal::from_number(number), Refusal::Unknown(number));
        assert_eq!(Refusal::from_number(number).number(), number);
    }
    assert_eq!(RowKind::from_number(2), RowKind::Unknown(2));
}

#[test]
fn the_header_for_c_has_the_same_numbers_and_names() {
    let header = include_str!("../../strelinga.h");
    let given: Vec<_> = header
        .lines()
        .filter_map(|line| line.trim().strip_prefix("STRELINGA_")?.split_once(" = "))
        .collect();
    for refusal in Refusal::NAMED {
        let name = refusal.name().replace(' ', "_");
        let (_, rest) = given.iter().find(|(given, _)| *given == name).expect(&name);
        let number: String = rest.chars().take_while(|c| c.is_ascii_digit()).collect();
        assert_eq!(number, refusal.number().to_string(), "{name}");
    }
}

#[test]
fn errors_say_their_number_name_and_place() {
    let cut = Refused { refusal: Refusal::CutShort, place: 27 };
    assert_eq!(cut.to_string(), "2 CUT SHORT at 27");
    assert_eq!(TidyError::Refused(cut).to_string(), "2 CUT SHORT at 27");
    let full = TidyError::OutFull { needed: 32 };
    assert_eq!(full.to_string(), "20 OUT FULL, 32 bytes are needed");
    assert_eq!((full.refusal().number(), full.place()), (20, 0));
    let first = NotCompared { list: List::First, error: full };
    assert_eq!(first.to_string(), "the first list: 20 OUT FULL, 32 bytes are needed");
}

#[test]
fn any_table_can_be_looked_at() {
    let table = [u32::MAX; 20];
    let all: Vec<_> = rows(&table).collect();
    assert_eq!(all.len(), 2);
    assert_eq!((all[0].kind(), all[0].end()), (RowKind::Unknown(u32::MAX), u32::MAX as usize));
    assert_eq!(text(&case_2(), &table, 0, Strict), None);
}
