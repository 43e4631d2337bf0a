//! Two networks made one, at the places where they differ.
//!
//! The two are walked together from the root. What is the same in both is left alone; where they differ steps are looked for that make it the
//! same, at the smallest places first: a few of any laws, then one by one, and normal forms at last.
use crate::align::{nested_alike, nesting};
use crate::draft::{joined, Budget, Draft};
use crate::exprs::{normal, Aim};
use crate::improve::cheaper;
use crate::laws::laws_at;
use crate::memo::Memo;
use crate::shorten::{cut_at_meeting, Ways};
use crate::single::normal_form;
use crate::term::Term;
use crate::tuning::{LOOK, MANY_STAGES, MOST_DEPTH, MOST_EFFORT, MOST_TWICE};

/// Steps from two networks to a third, where the search finds some: of what differs as little as serves is made the same.
pub fn ways_between(budget: &Budget, first: Term, second: Term, olds: usize) -> Option<Ways> {
    let draft = |net| Draft::new(budget, net, olds, Aim::Normal);
    let mut pair = Pair { first: draft(first), second: draft(second), apart: Memo::default() };
    pair.join(&[], MOST_EFFORT)?;
    Some((pair.first.steps, pair.second.steps))
}

/// Two networks on the way to one.
struct Pair {
    first: Draft,
    second: Draft,
    /// With how much effort trees were found to be apart.
    apart: Memo<(Term, Term), u32>,
}

impl Pair {
    /// What both have at a path.
    fn at(&self, path: &[u32]) -> Option<(Term, Term)> {
        Some((self.first.at(path)?, self.second.at(path)?))
    }

    /// Tries something; where that fails both are as before.
    fn attempt(&mut self, attempt: impl FnOnce(&mut Pair) -> Option<()>) -> Option<()> {
        let marks = (self.first.mark(), self.second.mark());
        let done = attempt(self);
        if done.is_none() {
            self.first.back_to(&marks.0);
            self.second.back_to(&marks.1);
        }
        done
    }

    /// Makes what both have at a path the same, with so much effort: so many steps at one place; with the greatest, normal forms. Else both
    /// are as before.
    fn join(&mut self, path: &[u32], effort: u32) -> Option<()> {
        let (a, b) = self.at(path)?;
        if a == b {
            return Some(());
        }
        let is_tried = self.apart.get(&(a, b)).map_or(false, |&tried| tried >= effort);
        if is_tried || path.len() > MOST_DEPTH || !self.first.budget.spend(LOOK) {
            return None;
        }
        let done = self.join_with(path, effort);
        if done.is_none() {
            self.apart.insert((a, b), effort);
        }
        done
    }

    fn join_with(&mut self, path: &[u32], effort: u32) -> Option<()> {
        if effort == 0 {
            return self.attempt(|pair| pair.join_parts(path, 0));
        }
        if effort < MOST_EFFORT {
            let by_parts = self.attempt(|pair| pair.join_parts(path, effort));
            return by_parts.or_else(|| [true, false].into_iter().find_map(|is_first| self.join_step(path, effort - 1, is_first)));
        }
        let lightly = self.join(path, effort - 1).or_else(|| self.attempt(|pair| pair.join_parts(path, effort)));
        lightly.or_else(|| self.join_forms(path))
    }

    /// Makes what both have at a path the same by a step in the one or in the other, and then with less effort.
    fn join_step(&mut self, path: &[u32], effort: u32, is_first: bool) -> Option<()> {
        for &law in laws_at(self.first.at(path)?).iter() {
            let draft = if is_first { &mut self.first } else { &mut self.second };
            if !draft.budget.spend(LOOK) {
                return None;
            }
            let mark = draft.mark();
            if draft.forward(law, path).is_none() {
                continue;
            }
            if self.join(path, effort).is_some() {
                return Some(());
            }
            let draft = if is_first { &mut self.first } else { &mut self.second };
            draft.back_to(&mark);
        }
        None
    }

    /// Makes what both have at a path the same, part by part: of chains the stages that stand beside one another, one by one or as many as
    /// stand between others.
    fn join_parts(&mut self, path: &[u32], effort: u32) -> Option<()> {
        let (a, b) = self.at(path)?;
        if a.op == b.op && nesting(a.op).is_some() {
            return [true, false].into_iter().find_map(|one_by_one| self.attempt(|pair| pair.join_links(path, one_by_one, effort)));
        }
        if !a.is_like(b) {
            return None;
        }
        (0..a.kids.len()).try_for_each(|k| self.join(&joined(path, &[k as u32]), effort))
    }

    fn join_links(&mut self, path: &[u32], one_by_one: bool, effort: u32) -> Option<()> {
        let places = nested_alike(&mut self.first, &mut self.second, path, one_by_one)?;
        places.iter().try_for_each(|place| self.join(place, effort))
    }

    /// Brings what both have at a path to its normal form, or long chains to what costs less, where that is one.
    fn join_forms(&mut self, path: &[u32]) -> Option<()> {
        let (a, b) = self.at(path)?;
        let budget = self.first.budget.clone();
        let is_long = a.stages.max(b.stages) > MANY_STAGES;
        let form = |net: Term, olds: usize| {
            if !net.op.is_net() {
                let way = normal(&budget, net);
                return (way.to, way.steps());
            }
            if is_long && net.size <= MOST_TWICE {
                return cheaper(&budget, net, olds);
            }
            let formed = normal_form(&budget, net, olds);
            (formed.net, formed.steps)
        };
        let ((to, there), (other, back)) = (form(a, self.first.olds_at(path)), form(b, self.second.olds_at(path)));
        let mut ways = Some((there, back)).filter(|_| to == other)?;
        cut_at_meeting(a, b, &mut ways);
        self.first.follow(path, &ways.0)?;
        self.second.follow(path, &ways.1)
    }
}
