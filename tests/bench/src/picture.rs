//! The growth as a picture: time over rows, both axes in powers of ten, one
//! panel for each job.

use crate::growth::Series;
use crate::timing::Times;
use crate::Point;

const PANEL: (f64, f64) = (330.0, 360.0);
const TOP: f64 = 50.0;
const LEFTS: [f64; 2] = [80.0, 510.0];
const SIZE: (f64, f64) = (890.0, 540.0);

/// Powers of ten at the ends of the axes: rows and seconds.
const ROWS: (i32, i32) = (3, 6);
const SECONDS: (i32, i32) = (-5, 2);
const SECOND_NAMES: [&str; 8] =
    ["10 µs", "100 µs", "1 ms", "10 ms", "100 ms", "1 s", "10 s", "100 s"];
const ROW_NAMES: [&str; 4] = ["1,000", "10,000", "100,000", "1,000,000"];

const COLOURS: [&str; 2] = ["#1f6f8b", "#c8553d"];
const DASHES: [(&str, &str); 2] = [("proved", "none"), ("peer", "5 4")];

type Job = fn(&Point) -> Option<Times>;

pub fn drawn(all: &[Series]) -> String {
    let (width, height) = SIZE;
    let mut svg = format!(
        "<svg xmlns=\"http://www.w3.org/2000/svg\" viewBox=\"0 0 {width} {height}\" font-family=\"sans-serif\" font-size=\"12\">\n\
         <title>Time of reading and tidying over the rows of a list, written by tests/benchmark</title>\n\
         <rect width=\"{width}\" height=\"{height}\" fill=\"white\"/>\n"
    );
    let jobs: [(&str, Job); 2] = [("read", |point| point.read), ("tidy", |point| point.tidied)];
    for ((name, job), left) in jobs.into_iter().zip(LEFTS) {
        svg += &panel(name, left);
        for (series, colour) in all.iter().zip(COLOURS) {
            svg += &lines(&series.of_job(job), colour, left);
        }
    }
    svg + &legend(all) + "</svg>\n"
}

fn x(rows: f64, left: f64) -> f64 {
    let (first, last) = ROWS;
    left + PANEL.0 * (rows.log10() - f64::from(first)) / f64::from(last - first)
}

/// Shorter times lie on the axis.
fn y(seconds: f64) -> f64 {
    let (first, last) = SECONDS;
    let part = (seconds.log10() - f64::from(first)) / f64::from(last - first);
    TOP + PANEL.1 * (1.0 - part.clamp(0.0, 1.0))
}

fn text(x: f64, y: f64, anchor: &str, words: &str) -> String {
    format!("<text x=\"{x:.1}\" y=\"{y:.1}\" text-anchor=\"{anchor}\">{words}</text>\n")
}

fn stroke(from: (f64, f64), to: (f64, f64), colour: &str, dash: &str) -> String {
    format!(
        "<line x1=\"{:.1}\" y1=\"{:.1}\" x2=\"{:.1}\" y2=\"{:.1}\" stroke=\"{colour}\" stroke-dasharray=\"{dash}\"/>\n",
        from.0, from.1, to.0, to.1
    )
}

/// The grid of one panel with its numbers.
fn panel(name: &str, left: f64) -> String {
    let (right, bottom) = (left + PANEL.0, TOP + PANEL.1);
    let title = format!("{name}: processor time");
    let mut svg = text(left + PANEL.0 / 2.0, TOP - 16.0, "middle", &title);
    for (power, label) in (ROWS.0..).zip(ROW_NAMES) {
        let x = x(10f64.powi(power), left);
        svg += &stroke((x, TOP), (x, bottom), "#ccc", "none");
        svg += &text(x, bottom + 18.0, "middle", label);
    }
    for (power, label) in (SECONDS.0..).zip(SECOND_NAMES) {
        let y = y(10f64.powi(power));
        svg += &stroke((left, y), (right, y), "#ccc", "none");
        svg += &text(left - 8.0, y + 4.0, "end", label);
    }
    svg + &text(left + PANEL.0 / 2.0, bottom + 38.0, "middle", "rows")
}

/// The proved job's line and the peer's.
fn lines(times: &[(usize, Times)], colour: &str, left: f64) -> String {
    let of: [fn(&Times) -> f64; 2] = [|times| times.proved, |times| times.peer];
    let mut svg = String::new();
    for (seconds, (_, dash)) in of.into_iter().zip(DASHES) {
        let at = |(rows, times): &(usize, Times)| (x(*rows as f64, left), y(seconds(times)));
        let places: Vec<(f64, f64)> = times.iter().map(at).collect();
        let path: Vec<String> = places.iter().map(|(x, y)| format!("{x:.1},{y:.1}")).collect();
        svg += &format!(
            "<polyline points=\"{}\" fill=\"none\" stroke=\"{colour}\" stroke-width=\"2\" stroke-dasharray=\"{dash}\"/>\n",
            path.join(" ")
        );
        for (x, y) in places {
            svg += &format!("<circle cx=\"{x:.1}\" cy=\"{y:.1}\" r=\"3\" fill=\"{colour}\"/>\n");
        }
    }
    svg
}

fn legend(all: &[Series]) -> String {
    let mut svg = String::new();
    for (number, (series, colour)) in all.iter().zip(COLOURS).enumerate() {
        for (line, (by, dash)) in DASHES.into_iter().enumerate() {
            let (x, y) = (LEFTS[number], TOP + PANEL.1 + 70.0 + 22.0 * line as f64);
            svg += &stroke((x, y), (x + 40.0, y), colour, dash);
            svg += &text(x + 48.0, y + 4.0, "start", &format!("{}, {by}", series.name));
        }
    }
    svg
}
