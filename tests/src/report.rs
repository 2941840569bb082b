//! Counts what a comparison came to, and shows what differs.

use crate::pairs::Comparison;
use crate::reader::{Reply, Setting, ROW_WORDS};
use crate::tidying::Demand;
use std::fmt::Display;

/// Replies by number, 0 for a stream that was read or a copy that was written.
pub const REPLIES: [&str; 24] = [
    "accepted, written",
    "TOO LARGE",
    "CUT SHORT",
    "UNKNOWN KIND",
    "NOT TAKEN",
    "WRONG PLACE",
    "BAD VERSION",
    "BAD LENGTH",
    "BAD TEXT",
    "BAD COUNT",
    "BAD TYPE",
    "BAD VALUE",
    "BAD ID",
    "NO LIBRARY",
    "NO CLASS",
    "TOO DEEP",
    "NO ROOM",
    "TRAILING",
    "NO ROOT",
    "NO OBJECT",
    "OUT FULL",
    "NO SUCH ROW",
    "BAD BOOK",
    "NOT IN BOOK",
];

/// More differences than these say nothing new.
const MOST_SHOWN: usize = 20;

/// How often each reply came, strict and lenient.
#[derive(Default)]
pub struct Replies([[usize; 2]; REPLIES.len()]);

impl Replies {
    pub fn count(&mut self, setting: Setting, outcome: &Result<usize, u32>) {
        let number = outcome.as_ref().err().map_or(0, |number| *number as usize);
        self.0[number][usize::from(setting.is_lenient())] += 1;
    }

    pub fn all(&self) -> [usize; 2] {
        [0, 1].map(|setting| self.0.iter().map(|counts| counts[setting]).sum())
    }
}

/// How often a table or an output had a size at which a job could go wrong.
#[derive(Default)]
pub struct Sizes {
    pub no_word: usize,
    pub under_a_row: usize,
    pub broken_row: usize,
    pub no_room: usize,
    pub empty_output: usize,
    pub output_full: usize,
}

impl Sizes {
    pub fn count_table(&mut self, words: usize, outcome: &Result<usize, u32>) {
        self.no_word += usize::from(words == 0);
        self.under_a_row += usize::from((1..ROW_WORDS).contains(&words));
        let broken = words % ROW_WORDS;
        self.broken_row += usize::from(words > ROW_WORDS && broken > 0);
        self.no_room += usize::from(*outcome == Err(Reply::NoRoom as u32));
    }

    pub fn count_output(&mut self, room: usize, outcome: &Result<usize, u32>) {
        self.empty_output += usize::from(room == 0);
        self.output_full += usize::from(*outcome == Err(Reply::OutFull as u32));
    }
}

/// What pairs of streams came to.
#[derive(Default)]
pub struct Pairs {
    pub same: usize,
    pub different: usize,
    /// First lists without a copy, and second ones.
    pub first_refused: usize,
    pub second_refused: usize,
    pub differences: usize,
}

impl Pairs {
    pub fn count(&mut self, answer: &Comparison) {
        match (answer.list, answer.same) {
            (1, _) => self.first_refused += 1,
            (2, _) => self.second_refused += 1,
            (_, 1) => self.same += 1,
            _ => self.different += 1,
        }
    }

    fn line(&self) -> String {
        let Pairs { same, different, first_refused, second_refused, differences } = self;
        let all = same + different + first_refused + second_refused;
        format!(
            "pairs: {all}, {same} say the same, {different} do not, {first_refused} without a first copy, {second_refused} without a second; differences: {differences}"
        )
    }
}

#[derive(Default)]
pub struct Report {
    pub read: Replies,
    pub tidied: Replies,
    pub sizes: Sizes,
    /// Tables, and rows in them, whose texts were asked for.
    pub tables: usize,
    pub rows: usize,
    pub texts: usize,
    pub noted: usize,
    pub unchanged: usize,
    pub packings: usize,
    pub packed: usize,
    pub pairs: Pairs,
    pub differences: usize,
}

impl Report {
    pub fn difference(&mut self, what: &str) {
        self.differences += 1;
        if self.differences <= MOST_SHOWN {
            println!("{what}");
        }
    }

    pub fn count_demand(&mut self, demand: &Demand) {
        match demand {
            Demand::None => {}
            Demand::Noted(_) => self.noted += 1,
            Demand::Unchanged => self.unchanged += 1,
            Demand::OneCopy(_) => self.packings += 1,
        }
    }

    pub fn print(&self) {
        println!("{:>22}{:>20}{:>20}", "", "read", "tidied");
        let settings = ["strict", "lenient"];
        print_counts("", "reply", settings, settings);
        let of_views = Reply::NoSuchRow as usize;
        for (number, name) in REPLIES.iter().enumerate().filter(|(number, _)| *number != of_views) {
            let number_shown = number.to_string();
            print_counts(&number_shown, name, self.read.0[number], self.tidied.0[number]);
        }
        print_counts("", "all", self.read.all(), self.tidied.all());
        self.print_sizes();
        println!("known copies: {}", self.noted);
        println!("tidy copies tidied again, under either setting: {}", self.unchanged);
        println!("packings: {} of {} lists", self.packings, self.packed);
        println!("{}", self.pairs.line());
        println!("texts: {} of {} rows in {} tables", self.texts, self.rows, self.tables);
        println!("differences: {}", self.differences);
    }

    fn print_sizes(&self) {
        let Sizes { no_word, under_a_row, broken_row, no_room, .. } = self.sizes;
        println!(
            "tables: {no_word} without a word, {under_a_row} of 1 to 7 words, {broken_row} with a broken last row, {no_room} too small"
        );
        let Sizes { empty_output, output_full, .. } = self.sizes;
        println!("outputs: {empty_output} empty, {output_full} too small");
    }
}

fn print_counts<T: Display>(number: &str, name: &str, read: [T; 2], tidied: [T; 2]) {
    let ([strict, lenient], [tidied_strict, tidied_lenient]) = (read, tidied);
    println!(
        "{number:>2}  {name:<18}{strict:>10}{lenient:>10}{tidied_strict:>10}{tidied_lenient:>10}"
    );
}
