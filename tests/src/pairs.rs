//! Pairs of streams on which the proved comparing job is compared with this
//! tidier and with the rule of saying the same, taken straight.

use crate::cases::{rows_of, table_words, Case};
use crate::generate::{self, Random};
use crate::padding::padded;
use crate::reader::{read_records, Refusal, Setting, Terms};
use crate::said;
use crate::same::same;
use crate::show::{byte_trace, littered, trace, MOST_WORDS};
use crate::tidy::tidy;
use crate::tidying::{copy_in, packing, Packing, MOST_ROWS};

/// Two streams with the class book and the setting of each, the sizes of the
/// table and of the two outputs.
pub struct Pair {
    pub what: String,
    pub streams: [Vec<u8>; 2],
    pub books: [Vec<u8>; 2],
    pub settings: [Setting; 2],
    pub words: usize,
    pub rooms: [usize; 2],
    /// Both are packings of one list, so they say the same where both have
    /// copies.
    pub one_list: bool,
}

impl Pair {
    pub fn terms(&self) -> [Terms<'_>; 2] {
        [0, 1].map(|list| self.settings[list].with(&self.books[list]))
    }
}

/// What the job hands out besides the table and the outputs.
pub struct Comparison {
    pub number: u32,
    pub same: u64,
    pub list: u64,
    pub place: u64,
    pub needed: u64,
}

impl Comparison {
    /// Every number, and a hash of every word of the table and of every byte of
    /// each output.
    pub fn line(&self, table: &[u32], outs: [&[u8]; 2]) -> String {
        let Comparison { number, same, list, place, needed } = self;
        let [first, second] = outs.map(byte_trace);
        let table = trace(table);
        format!("reply {number} same {same} list {list} place {place} needed {needed} {table} {first} {second}")
    }
}

/// What stands in a line where both have copies that are not equal.
pub const NOT_THE_SAME: &str = "reply 0 same 0 ";

/// What the independent side answers, and the line that a right job sends back.
pub fn found_pair(pair: &Pair) -> (Comparison, String) {
    let [a, b] = &pair.streams;
    let (mut table, mut first) = littered(pair.words, pair.rooms[0]);
    let (_, mut second) = littered(0, pair.rooms[1]);
    let [of_a, of_b] = pair.terms();
    let answer = match tidy(a, &mut table, &mut first, of_a) {
        Err(refusal) => refused(1, &refusal),
        Ok(_) => match tidy(b, &mut table, &mut second, of_b) {
            Err(refusal) => refused(2, &refusal),
            Ok(_) => {
                let same = u64::from(same([a, b], pair.terms()));
                Comparison { number: 0, same, list: 0, place: 0, needed: 0 }
            }
        },
    };
    let line = answer.line(&table, [&first, &second]);
    (answer, line)
}

fn refused(list: u64, refusal: &Refusal) -> Comparison {
    let (place, needed) = (refusal.place as u64, refusal.needed as u64);
    Comparison { number: refusal.number, same: 0, list, place, needed }
}

/// A list with more nulls is not packed anew: each would be put in for itself.
const MOST_NULLS: u64 = 10_000;

/// So often at most a list is changed until the change is accepted.
const TRIES: usize = 12;

struct Maker<'c> {
    random: Random,
    books: bool,
    cases: &'c [Case],
    /// Numbers of those that are accepted leniently with the largest table, and
    /// of the others.
    whole: Vec<usize>,
    broken: Vec<usize>,
}

/// So many pairs of the cases, made from the seed; none where no case is
/// accepted or none refused. Accepted ones have their turn in order, each once
/// or more where there are no more of them than pairs. With `books` most of the
/// other packings leave types to a class book.
pub fn pairs(seed: u64, count: usize, cases: &[Case], books: bool) -> Vec<Pair> {
    let accepted = |at: &usize| is_whole(&cases[*at].stream, cases[*at].terms(Setting::Lenient));
    let (whole, broken): (Vec<usize>, Vec<usize>) = (0..cases.len()).partition(accepted);
    if whole.is_empty() || broken.is_empty() {
        return Vec::new();
    }
    let turns = whole.len();
    let mut maker = Maker { random: Random::new(seed), books, cases, whole, broken };
    (0..count).map(|number| maker.pair(number * turns / count)).collect()
}

fn is_whole(stream: &[u8], terms: Terms) -> bool {
    read_records(stream, MOST_ROWS, terms).is_ok()
}

impl Maker<'_> {
    /// An accepted stream and another, either of them first.
    fn pair(&mut self, turn: usize) -> Pair {
        let case = &self.cases[self.whole[turn]];
        let own = || (case.stream.clone(), case.book.clone());
        let kind = self.random.below(12);
        let (how, other) = match kind {
            0..=2 => ("another packing", repacked(case, self.books, &mut self.random)),
            3 => ("itself padded", padded_packing(own(), &mut self.random)),
            4 => {
                let packed = repacked(case, self.books, &mut self.random);
                ("another packing, padded", padded_packing(packed, &mut self.random))
            }
            5..=8 => ("a change of it", changed(case, &mut self.random)),
            9 => {
                let next = self.whole[(turn + 1) % self.whole.len()];
                ("its neighbour", self.packing_of(next))
            }
            _ => {
                let broken = self.random.pick(&self.broken);
                ("a refused one", self.packing_of(broken))
            }
        };
        let what = format!("{} and {how}", case.what);
        let mut packings = [own(), other];
        if self.random.chance(50) {
            packings.reverse();
        }
        self.sized(what, packings, kind <= 4)
    }

    fn packing_of(&self, case: usize) -> Packing {
        (self.cases[case].stream.clone(), self.cases[case].book.clone())
    }

    /// The table has a size for either or both.
    fn sized(&mut self, what: String, packings: [Packing; 2], one_list: bool) -> Pair {
        let [a, b] = &packings;
        let rows = [rows_of(&a.0, &a.1), rows_of(&b.0, &b.1)];
        let most = rows[0].max(rows[1]);
        let rows = self.random.pick(&[most, most, most, rows[0], rows[1]]);
        let words = table_words(rows, &mut self.random);
        let rooms = [self.room(a), self.room(b)];
        let settings = [self.setting(a), self.setting(b)];
        let what = format!("{what}, {settings:?}");
        let [(a, book_a), (b, book_b)] = packings;
        Pair { what, streams: [a, b], books: [book_a, book_b], settings, words, rooms, one_list }
    }

    /// Either, but mostly the lenient one for a stream that it alone accepts.
    fn setting(&mut self, (stream, book): &Packing) -> Setting {
        let strict = if is_whole(stream, Setting::Strict.with(book)) { 50 } else { 15 };
        match self.random.chance(strict) {
            true => Setting::Strict,
            false => Setting::Lenient,
        }
    }

    /// Mostly as large as the copy or larger; else one byte too small, or
    /// empty.
    fn room(&mut self, (stream, book): &Packing) -> usize {
        let copy = copy_in(stream, MOST_WORDS, Setting::Lenient.with(book));
        let length = copy.map_or(stream.len() % 64, |copy| copy.len());
        match self.random.below(16) {
            0 => 0,
            1 => length.saturating_sub(1),
            2..=7 => length,
            _ => length + 1 + self.random.below(40),
        }
    }
}

/// A stream that says the same, itself where it has too many nulls.
fn repacked(case: &Case, books: bool, random: &mut Random) -> Packing {
    let reading = read_records(&case.stream, MOST_ROWS, case.terms(Setting::Lenient));
    let reading = reading.expect("a whole list is accepted");
    let runs = reading.records.iter().filter(|record| record.row.is_null_run());
    let nulls: u64 = runs.map(|record| u64::from(record.row.count)).sum();
    if nulls > MOST_NULLS {
        return (case.stream.clone(), case.book.clone());
    }
    packing(&said::list(&reading), books, random)
}

fn padded_packing((stream, book): Packing, random: &mut Random) -> Packing {
    (padded(&stream, &book, random), book)
}

/// The list with a small change, mostly accepted, which may say something else
/// or not.
fn changed(case: &Case, random: &mut Random) -> Packing {
    let mut other = generate::damaged(&case.stream, random);
    for _ in 1..TRIES {
        if is_whole(&other, case.terms(Setting::Lenient)) {
            break;
        }
        other = generate::damaged(&case.stream, random);
    }
    (other, case.book.clone())
}

#[cfg(test)]
mod tests {
    use super::*;
    use crate::cases::generated;
    use crate::reader::{Reply, ROW_WORDS};

    /// How many pairs there are of which this holds.
    fn with(all: &[(Pair, Comparison)], holds: impl Fn(&Pair, &Comparison) -> bool) -> usize {
        all.iter().filter(|(pair, answer)| holds(pair, answer)).count()
    }

    fn all() -> Vec<(Pair, Comparison)> {
        let with_answer = |pair| (found_pair(&pair).0, pair);
        let made = pairs(7, 2_000, &generated(7, 4_000, &[], true), true).into_iter();
        made.map(with_answer).map(|(answer, pair)| (pair, answer)).collect()
    }

    #[test]
    fn each_list_is_refused_and_both_answers_come() {
        let all = all();
        assert!(with(&all, |_, answer| answer.same == 1) > 100);
        assert!(with(&all, |_, answer| answer.number == 0 && answer.same == 0) > 100);
        for list in [1, 2] {
            let by = |number| with(&all, |_, a| a.list == list && a.number == number);
            assert!(by(Reply::NoRoom as u32) > 20);
            assert!(by(Reply::OutFull as u32) > 20);
            assert!(with(&all, |_, a| a.list == list && a.number < Reply::NoRoom as u32) > 20);
        }
    }

    /// Both settings for each list, also for lists that only one accepts.
    #[test]
    fn each_list_has_its_own_setting() {
        let all = all();
        for settings in Setting::BOTH.map(|a| Setting::BOTH.map(|b| [a, b])).concat() {
            let of = |pair: &Pair| pair.settings == settings;
            assert!(with(&all, |pair, answer| of(pair) && answer.same == 1) > 30, "{settings:?}");
            let padded = |pair: &Pair, list: usize| {
                let (stream, book) = (&pair.streams[list], &pair.books[list]);
                !is_whole(stream, Setting::Strict.with(book))
                    && is_whole(stream, settings[list].with(book))
            };
            let padded =
                |list| with(&all, |pair, a| of(pair) && a.number == 0 && padded(pair, list));
            for list in [0, 1] {
                let enough = if settings[list].is_lenient() { 20 } else { 0 };
                assert!(padded(list) >= enough, "{settings:?}: {}", padded(list));
            }
        }
        let bad_length = Reply::BadLength as u32;
        for list in [1, 2] {
            assert!(with(&all, |_, a| a.list == list && a.number == bad_length) > 20);
        }
    }

    /// Packings of one list, padded or not, say the same.
    #[test]
    fn one_list_says_the_same() {
        let all = all();
        let one = |pair: &Pair, a: &Comparison| pair.one_list && a.number == 0;
        assert!(with(&all, one) > 100);
        assert_eq!(with(&all, |pair, a| one(pair, a) && a.same == 0), 0);
    }

    #[test]
    fn tables_and_outputs_have_all_the_odd_sizes() {
        let all = all();
        let rows = |pair: &Pair, list: usize| rows_of(&pair.streams[list], &pair.books[list]);
        let most = |pair: &Pair| rows(pair, 0).max(rows(pair, 1));
        assert!(with(&all, |pair, _| pair.words == 0) > 10);
        assert!(with(&all, |pair, _| pair.words % ROW_WORDS > 0) > 50);
        assert!(with(&all, |pair, _| most(pair) == pair.words / ROW_WORDS) > 50);
        for list in [0, 1] {
            let copy = |pair: &Pair| {
                let terms = Setting::Lenient.with(&pair.books[list]);
                copy_in(&pair.streams[list], MOST_WORDS, terms)
            };
            let length = |pair: &Pair| copy(pair).map(|copy| copy.len());
            assert!(with(&all, |pair, _| pair.rooms[list] == 0) > 20);
            assert!(with(&all, |pair, _| length(pair) == Some(pair.rooms[list])) > 100);
            assert!(with(&all, |pair, _| length(pair) == Some(pair.rooms[list] + 1)) > 20);
        }
    }
}
