//! Steps that bring two networks nearer to one another.
//!
//! All forward steps of either are tried at the places where the two differ. Of the pairs to which they lead a few nearest ones are kept, from
//! which the search goes on, until the two are one or don't get nearer for long.
use crate::chain::stages;
use crate::draft::{Budget, Path, Step};
use crate::improve::Found;
use crate::laws::{forward, laws_at};
use crate::memo::Memo;
use crate::term::{replaced, Op, Term};
use crate::tuning::{self, LOOK};

/// The nearest two networks that are found from these, by laws up to this version, each with the steps to it; nothing where these are too large.
pub fn brought_nearer(budget: &Budget, first: Term, second: Term, version: u8) -> Option<(Found, Found)> {
    let pairs = first.size.saturating_mul(second.size);
    let width = tuning::WIDTHS.iter().find(|(most, _)| pairs <= *most)?.1;
    let mut climb = Climb { budget, version, width, taken: vec![], seen: Memo::default(), apart: Memo::default(), next: vec![] };
    let apart = climb.apart(first, second);
    climb.next.push(Both { first, second, apart, undone: 0, last: None });
    let best = climb.nearest()?;
    Some(climb.way_to(&best))
}

/// Two networks, how far they are from one another, and how they were come to.
#[derive(Clone, Copy)]
struct Both {
    first: Term,
    second: Term,
    apart: u64,
    /// How many of the steps were taken from the other network, each of which is undone in a certificate.
    undone: u32,
    /// The number of the last step.
    last: Option<usize>,
}

/// A step that was taken, of the one network or of the other, and the number of the one before.
struct Taken {
    step: Step,
    is_first: bool,
    before: Option<usize>,
}

struct Climb<'b> {
    budget: &'b Budget,
    /// The last version of which laws are tried.
    version: u8,
    /// How many pairs are kept.
    width: usize,
    taken: Vec<Taken>,
    seen: Memo<(Term, Term), ()>,
    /// How far trees are from one another.
    apart: Memo<(Term, Term), u64>,
    /// The pairs to go on from, the nearest first, each with the step to it.
    next: Vec<Both>,
}

impl Climb<'_> {
    /// The nearest pair that is found.
    fn nearest(&mut self) -> Option<Both> {
        let mut best = *self.next.first()?;
        let mut idle = 0;
        while best.apart > 0 && idle < tuning::MOST_IDLE && self.budget.left() > 0 {
            for both in std::mem::take(&mut self.next) {
                self.expand(both, true);
                self.expand(both, false);
            }
            let nearest = *self.next.first()?;
            idle += 1;
            if nearest.apart < best.apart {
                best = nearest;
                idle = 0;
            }
        }
        Some(best)
    }

    /// Tries all steps of the one network, or of the other.
    fn expand(&mut self, both: Both, is_first: bool) {
        let (from, other) = if is_first { (both.first, both.second) } else { (both.second, both.first) };
        let beside = Some(other).filter(|_| from.size > tuning::FEW_NODES);
        let (version, mut places) = (self.version, vec![]);
        add_places(from, beside, &mut vec![], 0, &mut places);
        for (path, here, olds) in places {
            for &law in laws_at(here).iter().filter(|law| law.version() <= version) {
                if !self.budget.spend(1) {
                    return;
                }
                if let Some(after) = forward(law, here, olds) {
                    self.reach(both, is_first, Step { law, ahead: true, at: path.clone(), before: here, after });
                }
            }
        }
    }

    /// Keeps the pair to which a step leads, where that is new and among the nearest.
    fn reach(&mut self, both: Both, is_first: bool, step: Step) {
        let (first, second) = if is_first {
            (replaced(both.first, &step.at, step.after), both.second)
        } else {
            (both.first, replaced(both.second, &step.at, step.after))
        };
        let is_large = first.size.saturating_mul(second.size) > tuning::WIDTHS[tuning::WIDTHS.len() - 1].0;
        if !self.budget.spend(LOOK * step.at.len() as u64) || is_large || self.seen.insert((first, second), ()).is_some() {
            return;
        }
        let reached = Both {
            first,
            second,
            apart: self.apart(first, second),
            undone: both.undone + u32::from(!is_first),
            last: Some(self.taken.len()),
        };
        let rank = |both: &Both| tuning::UNDONE * both.apart + u64::from(both.undone);
        let place = self.next.iter().position(|other| rank(other) > rank(&reached)).unwrap_or(self.next.len());
        if place < self.width {
            self.next.insert(place, reached);
            self.next.truncate(self.width);
            self.taken.push(Taken { step, is_first, before: both.last });
        }
    }

    /// How far two trees are from one another: about how many nodes only one of them has.
    fn apart(&mut self, a: Term, b: Term) -> u64 {
        if a == b {
            return 0;
        }
        if let Some(&found) = self.apart.get(&(a, b)) {
            return found;
        }
        self.budget.spend(1);
        let found = if a.op == Op::Seq || b.op == Op::Seq {
            self.apart_as_chains(&stages(a), &stages(b)).max(1)
        } else {
            let like = if a.is_like(b) { a.kids.iter().zip(b.kids.iter()).map(|(f, g)| self.apart(f, g)).sum() } else { u64::MAX };
            let inside = self.apart_inside(a, like.min(a.size + b.size), |climb, part| climb.apart(part, b));
            self.apart_inside(b, inside, |climb, part| climb.apart(a, part))
        };
        if self.apart.len() >= tuning::MOST_APART {
            self.apart.clear();
        }
        self.apart.insert((a, b), found);
        found
    }

    /// The least of a number and what it is to the parts of a tree, where that is an expression or a `first`, beside all else in it.
    fn apart_inside(&mut self, tree: Term, most: u64, to_part: impl Fn(&mut Self, Term) -> u64) -> u64 {
        if !tree.op.is_expr() && tree.op != Op::First {
            return most;
        }
        tree.kids.iter().fold(most, |least, part| {
            let rest = tree.size - part.size;
            if rest < least {
                least.min(rest + to_part(self, part))
            } else {
                least
            }
        })
    }

    /// The same of chains with these stages, each of which stands beside another one or alone.
    fn apart_as_chains(&mut self, first: &[Term], second: &[Term]) -> u64 {
        self.budget.spend((first.len() * second.len()) as u64);
        let mut row = vec![0];
        for g in second {
            row.push(row[row.len() - 1] + g.size);
        }
        for f in first {
            let mut next = vec![row[0] + f.size];
            for (k, g) in second.iter().enumerate() {
                let beside = row[k] + self.apart(f, g);
                next.push(beside.min(row[k + 1] + f.size).min(next[k] + g.size));
            }
            row = next;
        }
        row[second.len()]
    }

    /// A pair, with the steps to it.
    fn way_to(&self, both: &Both) -> (Found, Found) {
        let numbers = std::iter::successors(both.last, |&number| self.taken[number].before);
        let mut all: Vec<&Taken> = numbers.map(|number| &self.taken[number]).collect();
        all.reverse();
        let steps = |is_first: bool| all.iter().filter(|taken| taken.is_first == is_first).map(|taken| taken.step.clone()).collect();
        ((both.first, steps(true)), (both.second, steps(false)))
    }
}

/// Adds the places of a tree: the way to each, what stands there, and how many frozen networks are in scope; but what stands in the other one
/// at the same place, and the stages of a chain that are among those of the other one.
fn add_places(tree: Term, beside: Option<Term>, path: &mut Path, olds: usize, places: &mut Vec<(Path, Term, usize)>) {
    if beside == Some(tree) {
        return;
    }
    places.push((path.clone(), tree, olds));
    for (kid, k) in tree.kids.iter().zip(0u32..) {
        let other = match beside {
            Some(other) if tree.op == Op::Seq && kid.op == Op::Seq => Some(other),
            Some(other) if tree.op == Op::Seq => stages(other).into_iter().find(|f| f == kid),
            Some(other) if tree.is_like(other) => Some(other.kids[k as usize]),
            _ => None,
        };
        path.push(k);
        add_places(kid, other, path, olds + tree.olds_for(k as usize), places);
        path.pop();
    }
}
