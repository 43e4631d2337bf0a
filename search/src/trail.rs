//! Steps of an expression. A stretch of them is shared: to copy it, to move it to another place or to undo it costs nothing.
use crate::draft::{Path, Step};
use crate::laws::{forward, Law};
use crate::term::Term;
use std::rc::Rc;

/// A stretch of steps.
#[derive(Clone, Debug, Default)]
pub struct Trail {
    count: usize,
    part: Option<Rc<Part>>,
}

#[derive(Debug)]
enum Part {
    One { law: Law, ahead: bool, before: Term, after: Term },
    Below(Path, Trail),
    All(Vec<Trail>),
    Undone(Trail),
}

impl Trail {
    fn made(count: usize, part: Part) -> Trail {
        Trail { count, part: Some(Rc::new(part)) }
    }

    /// One stretch after the other.
    fn all(trails: Vec<Trail>) -> Trail {
        let mut trails: Vec<Trail> = trails.into_iter().filter(|trail| trail.count > 0).collect();
        if trails.len() < 2 {
            return trails.pop().unwrap_or_default();
        }
        let count = trails.iter().fold(0usize, |sum, trail| sum.saturating_add(trail.count));
        Trail::made(count, Part::All(trails))
    }

    /// The same steps in a larger term, which has the one that they begin at at the path.
    pub fn below(self, path: &[u32]) -> Trail {
        Trail::made(self.count, Part::Below(path.to_vec(), self))
    }

    /// The way back.
    pub fn undone(self) -> Trail {
        Trail::made(self.count, Part::Undone(self))
    }

    /// How many steps it has.
    pub fn len(&self) -> usize {
        self.count
    }

    /// The steps in their order.
    pub fn steps(&self) -> Vec<Step> {
        let mut steps = Vec::with_capacity(self.count);
        self.add_to(&mut Path::new(), false, &mut steps);
        steps
    }

    fn add_to(&self, path: &mut Path, undone: bool, steps: &mut Vec<Step>) {
        match self.part.as_deref() {
            None => {}
            Some(&Part::One { law, ahead, before, after }) => {
                let step = Step { law, ahead, at: path.clone(), before, after };
                steps.push(if undone { step.undone() } else { step });
            }
            Some(Part::Undone(trail)) => trail.add_to(path, !undone, steps),
            Some(Part::Below(more, trail)) => {
                let length = path.len();
                path.extend(more);
                trail.add_to(path, undone, steps);
                path.truncate(length);
            }
            Some(Part::All(trails)) if undone => trails.iter().rev().for_each(|trail| trail.add_to(path, undone, steps)),
            Some(Part::All(trails)) => trails.iter().for_each(|trail| trail.add_to(path, undone, steps)),
        }
    }
}

/// An expression that steps lead to.
#[derive(Clone, Debug)]
pub struct Way {
    /// Where they lead.
    pub to: Term,
    /// The steps.
    pub trail: Trail,
}

impl Way {
    /// No step.
    pub fn still(e: Term) -> Way {
        Way { to: e, trail: Trail::default() }
    }

    /// What is made of an expression.
    pub fn made(e: Term, make: impl FnOnce(&mut Walk)) -> Way {
        let mut walk = Walk::of(e);
        make(&mut walk);
        walk.done()
    }

    /// A law taken forward at the root, where it fits; else no step.
    pub fn by(law: Law, e: Term) -> Way {
        Way::made(e, |walk| walk.perhaps(law))
    }

    /// The steps in their order.
    pub fn steps(&self) -> Vec<Step> {
        self.trail.steps()
    }
}

/// An expression that is being rewritten, with the steps so far.
#[derive(Debug)]
pub struct Walk {
    /// The expression.
    pub now: Term,
    trails: Vec<Trail>,
}

impl Walk {
    /// An expression, with no step yet.
    pub fn of(e: Term) -> Walk {
        Walk { now: e, trails: Vec::new() }
    }

    /// Takes a law forward at the root; whether it fits.
    pub fn forward(&mut self, law: Law) -> bool {
        let after = forward(law, self.now, 0);
        if let Some(after) = after {
            self.took(law, true, after);
        }
        after.is_some()
    }

    /// Takes a law forward at the root, where it fits.
    pub fn perhaps(&mut self, law: Law) {
        self.forward(law);
    }

    /// Takes a law backward at the root, to an expression from which it leads to this one.
    pub fn backward(&mut self, law: Law, given: Term) {
        debug_assert_eq!(forward(law, given, 0), Some(self.now));
        self.took(law, false, given);
    }

    fn took(&mut self, law: Law, ahead: bool, after: Term) {
        self.trails.push(Trail::made(1, Part::One { law, ahead, before: self.now, after }));
        self.now = after;
    }

    /// Goes a way from here.
    pub fn follow(&mut self, way: &Way) {
        self.trails.push(way.trail.clone());
        self.now = way.to;
    }

    /// Rewrites part k.
    pub fn part(&mut self, k: usize, rewrite: impl FnOnce(&mut Walk)) {
        let way = Way::made(self.now.kids[k], rewrite);
        self.now = self.now.with_kid(k, way.to);
        self.trails.push(way.trail.below(&[k as u32]));
    }

    /// Goes the way that is found from part k.
    pub fn inside(&mut self, k: usize, find: impl FnOnce(Term) -> Way) {
        self.part(k, |part| part.then(find));
    }

    /// Goes the way that is found from here.
    pub fn then(&mut self, find: impl FnOnce(Term) -> Way) {
        self.follow(&find(self.now));
    }

    /// Goes the way that is found from each of the parts.
    pub fn parts(&mut self, find: impl FnMut(Term) -> Way) {
        let ways: Vec<Way> = self.now.kids.iter().copied().map(find).collect();
        let parts: Vec<Term> = ways.iter().map(|way| way.to).collect();
        self.now = self.now.with_kids(&parts);
        let trails = ways.into_iter().zip(0..).map(|(way, k)| way.trail.below(&[k]));
        self.trails.push(Trail::all(trails.collect()));
    }

    /// Where it is, and the steps there.
    pub fn done(self) -> Way {
        Way { to: self.now, trail: Trail::all(self.trails) }
    }
}
