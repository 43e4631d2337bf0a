//! Searches for certificates: `yampa-search certify SRC TGT`, `yampa-search improve NET`; what a network costs: `yampa-search cost NET`.
//!
//! Nothing that this program prints is trusted: the wrapper `yampa` hands each certificate to the proved program's `check`. A certificate is
//! printed on standard output, with status 0; else a line on standard error says why there is none, with status 1, or 3 where a file can't be
//! read.
mod acts;
mod align;
mod certify;
mod chain;
mod climb;
mod cost;
mod draft;
mod exprs;
mod improve;
mod joining;
mod laws;
mod lazily;
mod memo;
mod moves;
mod optimise;
mod place;
mod places;
mod print;
mod read;
mod sharing;
mod shorten;
mod single;
mod sums;
mod term;
mod trail;
mod tuning;
mod types;
mod ways;
mod wires;

use std::io::Write;
use std::process::exit;
use std::thread::Builder;
use term::Term;

/// How much stack the searches have: they go down into trees, which are no deeper than files and limits let them be.
const STACK: usize = 64 << 20;

const USAGE: &str = "yampa-search certify SRC TGT\nyampa-search improve NET\nyampa-search cost NET";

/// Why there is no certificate: what is told of it on standard output, a line, and a status.
pub struct Refusal {
    /// What is told of it.
    pub told: String,
    /// The line.
    pub line: String,
    /// The status.
    pub status: i32,
}

impl Refusal {
    /// A line and a status.
    pub fn new(line: impl Into<String>, status: i32) -> Refusal {
        Refusal { told: String::new(), line: line.into(), status }
    }
}

fn main() {
    let words: Vec<String> = std::env::args().skip(1).collect();
    let answer = match Builder::new().stack_size(STACK).spawn(move || answered(&words)) {
        Ok(run) => run.join(),
        Err(_) => exit(3),
    };
    exit(answer.unwrap_or(3));
}

/// Does what the words ask for, and returns the status.
fn answered(words: &[String]) -> i32 {
    let words: Vec<&str> = words.iter().map(String::as_str).collect();
    let found = match words.as_slice() {
        ["certify", source, target] => read(source).and_then(|source| certify::certified(source, read(target)?)),
        ["improve", net] => read(net).map(|(input, net)| certify::improving(input, net)),
        ["cost", net] => read(net).map(|(_, net)| format!("{}\n", cost::net_cost(net))),
        _ => Err(Refusal::new(USAGE, 2)),
    };
    match found {
        Ok(text) => printed(&text, 0),
        Err(refusal) => {
            let status = printed(&refusal.told, refusal.status);
            eprintln!("{}", refusal.line);
            status
        }
    }
}

/// Prints a text, and returns the status, or 3 where it can't be written.
fn printed(text: &str, status: i32) -> i32 {
    std::io::stdout().write_all(text.as_bytes()).map_or(3, |()| status)
}

/// The input type and the network of a file.
fn read(path: &str) -> Result<(Term, Term), Refusal> {
    let text = std::fs::read(path).map_err(|_| Refusal::new(format!("{}: cannot be read", path), 3))?;
    let (input, net) = read::read_file(&text).map_err(|at| Refusal::new(format!("{}: syntax at byte {}", path, at), 1))?;
    let is_typed = types::Replay::new(input, net).is_some();
    Some((input, net)).filter(|_| is_typed).ok_or_else(|| Refusal::new(format!("{}: no types", path), 1))
}
