//! What `certify` and `improve` print.
use crate::draft::{Budget, Step};
use crate::exprs::input;
use crate::improve::{improved, MOST_STEPS};
use crate::print::{certificate, position, text_of};
use crate::read::{MOST_BYTES, MOST_OPEN};
use crate::single::Form;
use crate::term::{node, Op, Term};
use crate::tuning::{MOST_BETWEEN, MOST_IMPROVING};
use crate::ways::Search;
use crate::wires::Graph;
use crate::Refusal;

/// The last number of a child that a certificate can name.
const LAST_CHILD: u32 = 65_535;

/// The most bytes of a text that isn't cut.
const LINE: usize = 100;

/// How deep in brackets a part may be that is shown of a text that is cut.
const DEEPEST: usize = 8;

/// The most bytes that are shown of a text of which only a part is.
const PART: usize = LINE - 4;

/// The most of them that stand before what differs.
const FRONT: usize = 20;

/// A certificate from a source to a target, each with its input type; or why none is found.
pub fn certified(source: (Term, Term), target: (Term, Term)) -> Result<String, Refusal> {
    if source.0 != target.0 {
        return Err(Refusal::new("certificate: inputs differ", 1));
    }
    let mut search = Search::new(source.0, source.1, target.1);
    let found = if source.1 == target.1 { Some(vec![]) } else { search.shortest() };
    match found {
        Some(steps) => within_limits(&steps),
        None => Err(none_found(why_none(&search, source.1, target.1))),
    }
}

/// The certificate with these steps, where it is within the limits of files.
fn within_limits(steps: &[Step]) -> Result<String, Refusal> {
    let text = certificate(steps);
    let is_reachable = steps.iter().all(|step| step.at.iter().all(|&k| k <= LAST_CHILD));
    if steps.len() <= MOST_STEPS && text.len() <= MOST_BYTES && is_reachable && deepest(&text) <= MOST_OPEN {
        return Ok(text);
    }
    Err(none_found(format!("too long: {} steps, {} bytes\n", steps.len(), text.len())))
}

/// How many brackets are open at once in a text.
fn deepest(text: &str) -> usize {
    let opened = text.bytes().scan(0usize, |open, byte| {
        *open = (*open + usize::from(byte == b'(')).saturating_sub(usize::from(byte == b')'));
        Some(*open)
    });
    opened.max().unwrap_or(0)
}

/// That no certificate is found, and why.
fn none_found(told: String) -> Refusal {
    Refusal { told, ..Refusal::new("certificate: none found", 1) }
}

/// Where the normal forms differ first, where both were come to; else how much was visited, and where the networks differ first.
fn why_none(search: &Search, source: Term, target: Term) -> String {
    let formed = search.forms.as_ref().filter(|(there, back)| there.is_done && back.is_done);
    let (gave_up, (a, b)) = match formed {
        Some((there, back)) => (String::new(), (there.net, back.net)),
        None => (format!("gave up: {} nodes visited\n", search.nodes), (source, target)),
    };
    let apart = formed.and_then(|_| wire_apart(&Budget::new(MOST_BETWEEN), a, b));
    let (path, a, b) = first_difference(a, b);
    format!("{}{}\n{}{}", gave_up, position(&path), pair_of_lines(a, b), apart.unwrap_or_default())
}

/// The first wire in which two normal forms differ: a part of what they output, else of the state of their loops.
fn wire_apart(budget: &Budget, a: Term, b: Term) -> Option<String> {
    let graph = |net| Form::read(net).and_then(|form| Graph::of(budget, form));
    let (a, b) = (graph(a)?, graph(b)?);
    let of_output = part_apart(a.shown, b.shown, input()).map(|part| named(part, "output"));
    let told = of_output.or_else(|| match (a.states.iter().zip(&b.states)).find(|(s, t)| (s.start, s.next) != (t.start, t.next)) {
        Some((s, t)) if s.start == t.start => Some(format!("{}, in what it becomes", named(s.place, "state"))),
        Some((s, t)) => {
            Some(format!("{}, which begins as {} and {}", named(s.place, "state"), cut(&text_of(s.start)), cut(&text_of(t.start))))
        }
        None => None,
    });
    told.map(|told| format!("the first wire that differs: {}\n", told))
}

/// Where the first part of a pair of pairs stands that differs from the other one's.
fn part_apart(a: Term, b: Term, at: Term) -> Option<Term> {
    if a.op != Op::Pair || b.op != Op::Pair {
        return Some(at).filter(|_| a != b);
    }
    let half = |k: usize, op: Op| part_apart(a.kids[k], b.kids[k], node(op, &[at]));
    half(0, Op::Fst).or_else(|| half(1, Op::Snd))
}

/// What stands there in a whole, or the whole.
fn named(at: Term, whole: &str) -> String {
    if at == input() {
        format!("the {}", whole)
    } else {
        format!("{} of the {}", cut(&text_of(at)), whole)
    }
}

/// The first position, a node before its children, at which two trees have different nodes, with what each has there.
fn first_difference(a: Term, b: Term) -> (Vec<u32>, Term, Term) {
    let mut path = vec![];
    let (mut a, mut b) = (a, b);
    while a.is_like(b) {
        match (0..a.kids.len()).find(|&k| a.kids[k] != b.kids[k]) {
            Some(k) => {
                path.push(k as u32);
                (a, b) = (a.kids[k], b.kids[k]);
            }
            None => break,
        }
    }
    (path, a, b)
}

/// The certificate to what costs less than a network.
pub fn improving(input: Term, net: Term) -> String {
    certificate(&improved(&Budget::new(MOST_IMPROVING), input, net).1)
}

/// Both trees, a line each behind `- ` and `+ `; where cutting leaves no difference to see, the part of each round the first byte at which
/// they differ.
fn pair_of_lines(before: Term, after: Term) -> String {
    let (before, after) = (text_of(before), text_of(after));
    let (mut first, mut second) = (cut(&before), cut(&after));
    if first == second && before != after {
        let at = before.bytes().zip(after.bytes()).take_while(|(a, b)| a == b).count();
        first = around(&before, at);
        second = around(&after, at);
    }
    format!("- {}\n+ {}\n", first, second)
}

/// The text; a long one with two dots for each part that is too deep in brackets, as deep as a line holds; else its first word, and two dots
/// for the rest.
fn cut(whole: &str) -> String {
    if whole.len() <= LINE {
        return whole.to_string();
    }
    let fitting = (1..=DEEPEST).rev().map(|most| to_depth(whole, most)).find(|shown| shown.len() <= LINE);
    fitting.unwrap_or_else(|| format!("{} ..)", whole.split(' ').next().unwrap_or("")))
}

/// The text with two dots for each part in so many brackets.
fn to_depth(whole: &str, most: usize) -> String {
    let mut text = String::new();
    let mut depth = 0;
    for c in whole.chars() {
        if depth == most && c == '(' {
            text.push_str("..");
        } else if depth <= most {
            text.push(c);
        }
        match c {
            '(' => depth += 1,
            ')' => depth -= 1,
            _ => {}
        }
    }
    text
}

/// The part of a text round a byte, with two dots for what stands before and behind.
fn around(whole: &str, at: usize) -> String {
    let from = at.saturating_sub(FRONT).min(whole.len());
    let to = whole.len().min(from + PART);
    let front = if from > 0 { ".." } else { "" };
    let back = if to < whole.len() { ".." } else { "" };
    format!("{}{}{}", front, &whole[from..to], back)
}
