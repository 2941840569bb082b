//! Asks a comparing program: streams go in, a line for each comes out.

use std::io::{Read, Write};
use std::process::{Child, ChildStdin, Command, Stdio};
use std::thread;

pub struct Asked {
    pub lines: Vec<String>,
    /// What went wrong besides, as a program that broke off.
    pub faults: Vec<String>,
}

/// What the program, named with its words, answers to what is sent.
pub fn ask(program: &[String], sent: Vec<u8>) -> Result<Asked, String> {
    let mut child = start(program)?;
    let writer = write_all(child.stdin.take(), sent);
    let mut text = Vec::new();
    let stdout = child.stdout.as_mut().ok_or("the program has no standard output")?;
    stdout.read_to_end(&mut text).map_err(|error| format!("reading from the program: {error}"))?;
    let mut faults = Vec::new();
    if let Err(why) = writer.join().map_err(|_| "the writing thread broke off".to_string())? {
        faults.push(why);
    }
    let status = child.wait().map_err(|error| error.to_string())?;
    if !status.success() {
        faults.push(format!("the program ended with {status}"));
    }
    let lines = String::from_utf8_lossy(&text).lines().map(str::to_string).collect();
    Ok(Asked { lines, faults })
}

fn start(program: &[String]) -> Result<Child, String> {
    let mut command = Command::new(&program[0]);
    command.args(&program[1..]).stdin(Stdio::piped()).stdout(Stdio::piped());
    command.spawn().map_err(|error| format!("{}: {error}", program[0]))
}

/// Writes from a thread of its own: the program stops reading while nobody
/// takes what it writes.
fn write_all(stdin: Option<ChildStdin>, sent: Vec<u8>) -> thread::JoinHandle<Result<(), String>> {
    thread::spawn(move || {
        let mut stdin = stdin.ok_or("the program has no standard input")?;
        stdin.write_all(&sent).map_err(|error| format!("writing to the program: {error}"))
    })
}
