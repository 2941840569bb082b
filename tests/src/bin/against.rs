//! `against RUN.. [--seed N] [--count N] [--lists FOLDER] [--changes FOLDER]
//! [--linked PROGRAM]`:
//! compares the proved jobs with the independent ones, stream by stream:
//! answer, place or length, every word of the table and every byte of the
//! output; and the fast ones with the independent ones, on the same. Every stream
//! is read and tidied under both settings. RUN with its words runs the comparing
//! program whose name comes after them. PROGRAM has the C forms linked; it
//! compares pairs, shows texts and takes large streams. The programs get a class
//! book with every stream, and half of those made from a seed have entries in it.

use independent_reader::asked::{ask, Asked};
use independent_reader::cases::{self, Case};
use independent_reader::changes;
use independent_reader::corpus::{copy_note, rows_hash};
use independent_reader::generate::Random;
use independent_reader::large::large;
use independent_reader::outside;
use independent_reader::pairs::{found_pair, pairs, Pair, NOT_THE_SAME};
use independent_reader::reader::Setting;
use independent_reader::report::Report;
use independent_reader::show::{
    found, found_tidying, send, send_table, send_with_book, Found, MOST_BOOK, MOST_BYTES,
    MOST_ROOM, MOST_STREAMS, MOST_WORDS,
};
use independent_reader::tidying::{self, copy_part, part_of, Demand, Tidying};
use independent_reader::views::{found_views, planted, rows_asked};
use std::collections::HashMap;
use std::path::PathBuf;
use std::process::ExitCode;

const USAGE: &str =
    "against RUN.. [--seed N] [--count N] [--lists FOLDER] [--changes FOLDER] [--linked PROGRAM]";
const USUAL_SEED: u64 = 1;
const USUAL_COUNT: usize = 20_000;

/// The comparing programs, and what the linked one is asked for.
const READING: &str = "compare";
const TIDYING: &str = "compare_tidy";
const LINKED_READING: &str = "read";
const LINKED_TIDYING: &str = "tidy";
const LINKED_VIEWS: &str = "view";
const LINKED_COMPARING: &str = "same";

/// The word that makes a program lenient.
const LENIENT: &str = "--lenient";

/// What C forms may be given for the lenient setting: any number but 0.
const LENIENT_NUMBERS: [u32; 6] = [1, 2, 256, 65_536, 1 << 31, u32::MAX];

/// Streams made at once, each batch from a seed of its own.
const BATCH: usize = 20_000;

/// One list is repacked for so many streams.
const STREAMS_A_REPACKING: usize = 10;

/// One pair is made for so many streams.
const STREAMS_A_PAIR: usize = 5;

/// A longer stream is a file with a name, or large.
const MOST_HEX: usize = 65_536;

fn main() -> ExitCode {
    match compare_all() {
        Ok(0) => ExitCode::SUCCESS,
        Ok(_) => ExitCode::FAILURE,
        Err(why) => {
            eprintln!("{why}");
            ExitCode::FAILURE
        }
    }
}

/// The number of differences.
fn compare_all() -> Result<usize, String> {
    let wishes = Wishes::from(std::env::args().skip(1))?;
    let lists = wishes.lists()?;
    let (by_hand, changes) = (cases::by_hand(), wishes.changes()?);
    let outside = outside::cases()?;
    let (hand, noted, changed, real) = (by_hand.len(), outside.len(), changes.len(), lists.len());
    let large = if wishes.linked.is_some() { large(&lists) } else { Vec::new() };
    println!(
        "seed {}: {} generated streams, {hand} by hand, {noted} with outcomes noted, {changed} of changes, {real} lists, {} large ones",
        wishes.seed,
        wishes.count,
        large.len()
    );
    let mut report = Report::default();
    let not_made = by_hand.into_iter().chain(outside).chain(changes).chain(lists.clone());
    let pairs = hand + noted + changed + real;
    wishes.compare_batch(wishes.seed, [0, pairs], not_made, &mut report)?;
    let mut seeds = Random::new(wishes.seed);
    let mut seed = wishes.seed;
    for first in (0..wishes.count).step_by(BATCH) {
        let count = BATCH.min(wishes.count - first);
        let made = cases::generated(seed, count, &lists, true).into_iter().take(count);
        let counts = [count / STREAMS_A_REPACKING, count / STREAMS_A_PAIR];
        wishes.compare_batch(seed, counts, made, &mut report)?;
        seed = seeds.draw();
    }
    wishes.compare_large(&large, &mut report)?;
    report.print();
    Ok(report.differences)
}

struct Wishes {
    run: Vec<String>,
    seed: u64,
    count: usize,
    lists: Option<PathBuf>,
    changes: Option<PathBuf>,
    linked: Option<String>,
}

impl Wishes {
    fn from(mut words: impl Iterator<Item = String>) -> Result<Wishes, String> {
        let (run, seed, count) = (Vec::new(), USUAL_SEED, USUAL_COUNT);
        let (lists, changes, linked) = (None, None, None);
        let mut wishes = Wishes { run, seed, count, lists, changes, linked };
        while let Some(word) = words.next() {
            match word.as_str() {
                "--seed" => wishes.seed = number(words.next())?,
                "--count" => wishes.count = number(words.next())?,
                "--lists" => wishes.lists = Some(words.next().ok_or(USAGE)?.into()),
                "--changes" => wishes.changes = Some(words.next().ok_or(USAGE)?.into()),
                "--linked" => wishes.linked = Some(words.next().ok_or(USAGE)?),
                _ => wishes.run.push(word),
            }
        }
        if wishes.run.is_empty() {
            return Err(USAGE.to_string());
        }
        Ok(wishes)
    }

    fn lists(&self) -> Result<Vec<Case>, String> {
        self.lists.as_ref().map_or(Ok(Vec::new()), |folder| cases::lists(folder))
    }

    fn changes(&self) -> Result<Vec<Case>, String> {
        self.changes.as_ref().map_or(Ok(Vec::new()), |folder| changes::cases(folder))
    }

    /// The comparing program of a name and, where there is one, the linked one
    /// with a job that answers the same.
    fn programs(&self, [name, job]: [&str; 2], setting: Setting, turn: usize) -> Vec<Vec<String>> {
        let mut words = self.run.clone();
        words.push(name.to_string());
        words.extend(setting.is_lenient().then(|| LENIENT.to_string()));
        let linked = self.linked.iter();
        let linked = linked.map(|linked| linked_program(linked, job, number_of(setting, turn)));
        [words].into_iter().chain(linked).collect()
    }

    /// Reads and tidies the cases, and packings of so many lists made from the
    /// seed and of those among the cases; then so many pairs.
    fn compare_batch(
        &self,
        seed: u64,
        [repackings, pair_count]: [usize; 2],
        cases: impl Iterator<Item = Case>,
        report: &mut Report,
    ) -> Result<(), String> {
        let cases: Vec<Case> = cases.collect();
        held_to_limits(
            cases
                .iter()
                .map(|case| (&*case.what, size_of(&case.stream, &case.book), case.words, 0)),
        )?;
        for setting in Setting::BOTH {
            let programs = self.programs([READING, LINKED_READING], setting, seed as usize);
            self.compare_reading(&programs, setting, &cases, report)?;
        }
        let mut tidyings: Vec<Tidying> = cases.iter().flat_map(tidying::of_case).collect();
        tidyings.extend(tidying::repacked(seed, repackings, &cases, true));
        held_to_limits(
            tidyings
                .iter()
                .map(|one| (&*one.what, size_of(&one.stream, &one.book), one.words, one.room)),
        )?;
        let programs = |setting| self.programs([TIDYING, LINKED_TIDYING], setting, seed as usize);
        self.compare_tidying(programs, &tidyings, report)?;
        match &self.linked {
            Some(linked) => {
                compare_views(linked, seed, &cases, report)?;
                let pairs = pairs(seed, pair_count, &cases, true);
                self.compare_pairs(linked, seed, &pairs, report)
            }
            None => Ok(()),
        }
    }

    /// One at a time, as each takes much memory.
    fn compare_large(&self, cases: &[Case], report: &mut Report) -> Result<(), String> {
        let Some(linked) = &self.linked else {
            return Ok(());
        };
        for (turn, case) in cases.iter().enumerate() {
            let case = std::slice::from_ref(case);
            let program =
                |job, setting| vec![linked_program(linked, job, number_of(setting, turn))];
            for setting in Setting::BOTH {
                self.compare_reading(&program(LINKED_READING, setting), setting, case, report)?;
            }
            let tidyings = tidying::of_case(&case[0]);
            self.compare_tidying(|setting| program(LINKED_TIDYING, setting), &tidyings, report)?;
            compare_views(linked, turn as u64, case, report)?;
        }
        Ok(())
    }

    /// Each program is held to the same.
    fn compare_reading(
        &self,
        programs: &[Vec<String>],
        setting: Setting,
        cases: &[Case],
        report: &mut Report,
    ) -> Result<(), String> {
        let mut sent = Vec::new();
        for case in cases {
            send_with_book(&case.stream, &[case.words], &case.book, &mut sent);
        }
        let asked = ask_all(programs, &sent, cases.len(), report)?;
        for (number, case) in cases.iter().enumerate() {
            let found = found(&case.stream, case.words, case.terms(setting));
            report.read.count(setting, &found.outcome);
            report.sizes.count_table(case.words, &found.outcome);
            let mut faults: Vec<String> =
                found.fast_fault(&case.stream, &case.book).into_iter().collect();
            for asked in &asked {
                let line = line_of(asked, number);
                faults.extend(differing(&found.line(), line));
                faults.extend(against_known(case, &found, line));
            }
            let what = format!("{}, {setting:?}", case.what);
            note(report, &what, &[&case.stream, &case.book], &[case.words], &faults);
        }
        Ok(())
    }

    /// The programs of a setting are each held to the same; what is demanded of
    /// copies holds between all.
    fn compare_tidying(
        &self,
        programs: impl Fn(Setting) -> Vec<Vec<String>>,
        tidyings: &[Tidying],
        report: &mut Report,
    ) -> Result<(), String> {
        let mut copies = Copies::default();
        for setting in Setting::BOTH {
            let under: Vec<&Tidying> =
                tidyings.iter().filter(|one| one.setting == setting).collect();
            let mut sent = Vec::new();
            for one in &under {
                send_with_book(&one.stream, &[one.words, one.room], &one.book, &mut sent);
            }
            let asked = ask_all(&programs(setting), &sent, under.len(), report)?;
            for (number, one) in under.into_iter().enumerate() {
                let found = found_tidying(&one.stream, one.words, one.room, one.terms());
                report.tidied.count(setting, &found.outcome);
                report.sizes.count_output(one.room, &found.outcome);
                report.count_demand(&one.demand);
                let mut faults: Vec<String> =
                    found.fast_fault(&one.stream, &one.book).into_iter().collect();
                for asked in &asked {
                    let line = line_of(asked, number);
                    faults.extend(differing(&found.line(), line));
                    faults.extend(copies.fault(one, &found, line));
                }
                note(report, &one.what, &[&one.stream, &one.book], &[one.words, one.room], &faults);
            }
        }
        report.packed += copies.of_group.len();
        Ok(())
    }

    /// Whether the two of a pair say the same.
    fn compare_pairs(
        &self,
        linked: &str,
        seed: u64,
        pairs: &[Pair],
        report: &mut Report,
    ) -> Result<(), String> {
        let mut random = Random::new(seed);
        let mut sent = Vec::new();
        for Pair { streams: [a, b], books, settings, words, rooms, .. } in pairs {
            let numbers = settings.map(|setting| number_of(setting, random.below(BATCH)) as usize);
            let mut others = vec![b.len(), *words, rooms[0], rooms[1], numbers[0], numbers[1]];
            others.extend(books.iter().map(Vec::len));
            send(a, &others, &mut sent);
            sent.extend_from_slice(b);
            books.iter().for_each(|book| sent.extend_from_slice(book));
        }
        let asked = ask(&[linked.to_string(), LINKED_COMPARING.to_string()], sent)?;
        note_program(&asked, pairs.len(), report);
        for (number, pair) in pairs.iter().enumerate() {
            let line = line_of(&asked, number);
            let (answer, right) = found_pair(pair);
            report.pairs.count(&answer);
            let mut faults = differing(&right, line);
            if pair.one_list && line.starts_with(NOT_THE_SAME) {
                faults.push(format!("packings of one list, not the same: {line}"));
            }
            report.pairs.differences += usize::from(!faults.is_empty());
            let sizes = [pair.words, pair.rooms[0], pair.rooms[1]];
            let all = pair.streams.iter().chain(&pair.books).collect::<Vec<_>>();
            note(report, &pair.what, &all, &sizes, &faults);
        }
        Ok(())
    }
}

fn linked_program(linked: &str, job: &str, setting: u32) -> Vec<String> {
    vec![linked.to_string(), job.to_string(), setting.to_string()]
}

/// A number that the C forms are given for a setting, another one each turn
/// where there are several.
fn number_of(setting: Setting, turn: usize) -> u32 {
    match setting {
        Setting::Strict => 0,
        Setting::Lenient => LENIENT_NUMBERS[turn % LENIENT_NUMBERS.len()],
    }
}

fn number<T: std::str::FromStr>(word: Option<String>) -> Result<T, String> {
    word.and_then(|word| word.parse().ok()).ok_or(USAGE.to_string())
}

fn size_of(stream: &[u8], book: &[u8]) -> [usize; 2] {
    [stream.len(), book.len()]
}

/// The program would stop at a stream that it has no space for.
fn held_to_limits<'c>(
    all: impl ExactSizeIterator<Item = (&'c str, [usize; 2], usize, usize)>,
) -> Result<(), String> {
    if all.len() > MOST_STREAMS {
        return Err(format!("the program takes at most {MOST_STREAMS} streams"));
    }
    for (what, [stream, book], words, room) in all {
        let too_long = stream > MOST_BYTES || book > MOST_BOOK;
        if too_long || words > MOST_WORDS || room > MOST_ROOM {
            return Err(format!("{what}: the program has no space for it"));
        }
    }
    Ok(())
}

/// What the rows of the lenient reading show, which are those of the strict one
/// where that has any, and rows that no reading left; each under both settings.
fn compare_views(
    linked: &str,
    seed: u64,
    cases: &[Case],
    report: &mut Report,
) -> Result<(), String> {
    let mut random = Random::new(seed);
    let mut asked_of: Vec<(&Case, Vec<u32>)> = Vec::new();
    for case in cases {
        asked_of.push((case, found(&case.stream, case.words, case.terms(Setting::Lenient)).table));
        asked_of.push((case, planted(&case.stream, &mut random)));
    }
    let mut sent = Vec::new();
    for (case, table) in &asked_of {
        send(&case.stream, &[table.len()], &mut sent);
        send_table(table, &mut sent);
    }
    for setting in Setting::BOTH {
        let number = number_of(setting, seed as usize);
        let asked = ask(&linked_program(linked, LINKED_VIEWS, number), sent.clone())?;
        note_program(&asked, asked_of.len(), report);
        for (number, (case, table)) in asked_of.iter().enumerate() {
            let views = found_views(&case.stream, table, setting);
            report.tables += 1;
            report.rows += rows_asked(table.len()).count();
            report.texts += views.texts;
            let faults = differing(&views.line(), line_of(&asked, number));
            let what = format!("{}, texts, {setting:?}", case.what);
            note(report, &what, &[&case.stream], &[table.len()], &faults);
        }
    }
    Ok(())
}

/// What each program answers to what is sent for so many streams.
fn ask_all(
    programs: &[Vec<String>],
    sent: &[u8],
    streams: usize,
    report: &mut Report,
) -> Result<Vec<Asked>, String> {
    let mut all = Vec::new();
    for program in programs {
        let asked = ask(program, sent.to_vec())?;
        note_program(&asked, streams, report);
        all.push(asked);
    }
    Ok(all)
}

/// What went wrong with the program itself, and lines after the last stream,
/// are differences.
fn note_program(asked: &Asked, streams: usize, report: &mut Report) {
    asked.faults.iter().for_each(|fault| report.difference(fault));
    for line in asked.lines.iter().skip(streams) {
        report.difference(&format!("after the last stream: {line}"));
    }
}

/// Every stream has one line.
fn line_of(asked: &Asked, number: usize) -> &str {
    asked.lines.get(number).map_or("(no line)", String::as_str)
}

fn differing(right: &str, line: &str) -> Vec<String> {
    if line == right {
        return Vec::new();
    }
    vec![format!("program      {line}"), format!("independent  {right}")]
}

/// One stream or more, and their books behind them.
fn note(
    report: &mut Report,
    what: &str,
    streams: &[impl AsRef<[u8]>],
    sizes: &[usize],
    faults: &[String],
) {
    if faults.is_empty() {
        return;
    }
    let bytes: Vec<usize> = streams.iter().map(|stream| stream.as_ref().len()).collect();
    let mut text = format!("{what}, bytes {bytes:?}, table and output {sizes:?}\n");
    for stream in streams.iter().map(AsRef::as_ref).filter(|stream| stream.len() <= MOST_HEX) {
        let hex: String = stream.iter().map(|byte| format!("{byte:02X}")).collect();
        text += &format!("  stream       {hex}\n");
    }
    report.difference(&(text + "  " + &faults.join("\n  ")));
}

/// What is known of a reading besides what the independent reader finds.
fn against_known(case: &Case, found: &Found, line: &str) -> Vec<String> {
    let mut faults = Vec::new();
    let Some(known) = case.known_under(found.setting) else {
        return faults;
    };
    let rows = found.outcome.ok().map(|rows| rows_hash(&found.table, rows));
    if known.answer.as_ref().is_some_and(|answer| answer != answer_of(line)) {
        faults.push(format!("known        {:?}, not {line}", known.answer));
    }
    if known.rows.is_some() && known.rows != rows {
        faults.push(format!("known rows   {:?}, not {rows:?}", known.rows));
    }
    faults
}

/// The line of a reading without its two hashes.
fn answer_of(line: &str) -> &str {
    line.rsplitn(3, ' ').last().unwrap_or("")
}

/// What the program's own lines say of the copies that must be equal.
#[derive(Default)]
struct Copies {
    /// The first copy of each group.
    of_group: HashMap<usize, Option<(String, String)>>,
    /// What was said first of each tidy copy, by the copy and the words of the
    /// table.
    of_copy: HashMap<(Vec<u8>, usize), String>,
}

impl Copies {
    fn fault(&mut self, one: &Tidying, found: &Found, line: &str) -> Option<String> {
        let part = copy_part(line);
        match &one.demand {
            Demand::None => None,
            Demand::Noted(known) => {
                let copy = found.out.as_deref().map(copy_note);
                let same = copy.as_ref() == Some(known);
                (!same).then(|| format!("known copy   {known}, not {copy:?}"))
            }
            Demand::Unchanged => {
                if part != Some(part_of(&one.stream)) {
                    return Some(format!("a tidy copy is changed: {line}"));
                }
                let key = (one.stream.clone(), one.words);
                let first = self.of_copy.entry(key).or_insert_with(|| line.to_string());
                (first != line).then(|| format!("a copy has other rows: {first}, not {line}"))
            }
            Demand::OneCopy(group) => {
                let first = self.of_group.entry(*group).or_insert_with(|| part.clone());
                let same = part.is_some() && part == *first;
                (!same).then(|| format!("another packing has another copy: {first:?}, {line}"))
            }
        }
    }
}
