//! Steps that lead nowhere are left out.
use crate::chain::{head, parts, seq};
use crate::draft::{joined, Step};
use crate::laws;
use crate::place::Place;
use crate::term::{hash_of, Term};
use crate::tuning::MOST_LOOKS_BACK;
use std::collections::HashMap;

/// Steps from each of two trees to a third.
pub type Ways = (Vec<Step>, Vec<Step>);

/// The steps, which are taken from a network on, without those that lead nowhere: to what stood at a position before, or to a network that was
/// on the way.
pub fn shortened(start: Term, steps: &[Step]) -> Vec<Step> {
    on_the_way(start, &changing(steps))
}

/// The steps without those between which the same tree stands at one position.
fn changing(steps: &[Step]) -> Vec<Step> {
    let mut looks = MOST_LOOKS_BACK;
    let mut kept: Vec<Step> = vec![];
    for step in steps {
        kept.push(step.clone());
        let first = first_undone(&kept, step, &mut looks);
        let later = kept.split_off(first);
        kept.extend(later.into_iter().filter(|other| !other.at.starts_with(&step.at)));
    }
    kept
}

/// The number of the first step at the position of the last one before which there stood what stands there now, where no step from it on is
/// taken above that position; else how many there are.
fn first_undone(kept: &[Step], last: &Step, looks: &mut u64) -> usize {
    let mut first = kept.len();
    for (k, other) in kept.iter().enumerate().rev() {
        let is_above = other.at.len() < last.at.len() && last.at.starts_with(&other.at);
        if is_above || *looks == 0 {
            return first;
        }
        *looks -= 1;
        if other.at == last.at && other.before == last.after {
            first = k;
        }
    }
    first
}

/// The steps where from each network the way goes on at the last one that is the same.
fn on_the_way(start: Term, steps: &[Step]) -> Vec<Step> {
    let hashes = hashes_on(start, steps);
    let last: HashMap<u64, usize> = hashes.iter().enumerate().map(|(k, &hash)| (hash, k)).collect();
    let mut kept = vec![];
    let mut k = last[&hashes[0]];
    while k < steps.len() {
        kept.push(steps[k].clone());
        k = last[&hashes[k + 1]];
    }
    kept
}

/// The hashes of the trees on a way, from its start to its end. None of them is made.
fn hashes_on(start: Term, steps: &[Step]) -> Vec<u64> {
    let mut place = Place::new(start);
    let mut all = vec![start.hash];
    for step in steps {
        place.go(&step.at);
        place.put(step.after);
        let whole = place.above().iter().zip(place.path()).rev().fold(step.after.hash, |inner, (outer, &own)| {
            let kids = outer.kids.iter().zip(0u32..).map(|(kid, k)| if k == own { inner } else { kid.hash });
            hash_of(outer.op, outer.number, outer.ty, kids)
        });
        all.push(whole);
    }
    all
}

/// Cuts off the steps from two trees that end at one, behind where they meet with the fewest steps.
pub fn cut_at_meeting(first: Term, second: Term, ways: &mut Ways) {
    let mut places = HashMap::new();
    for (j, hash) in hashes_on(second, &ways.1).into_iter().enumerate() {
        places.entry(hash).or_insert(j);
    }
    let all = hashes_on(first, &ways.0);
    let meetings = all.iter().enumerate().filter_map(|(i, hash)| places.get(hash).map(|&j| (i, j)));
    if let Some((i, j)) = meetings.min_by_key(|(i, j)| i + j) {
        ways.0.truncate(i);
        ways.1.truncate(j);
    }
}

/// The steps, of which those that take `FUSE_FRONT` backward are two, `FUSE` backward and `NEST`, so that no text tells what stands behind.
pub fn told_briefly(steps: &[Step]) -> Vec<Step> {
    let in_two = |step: &Step| {
        let ((_, rest), (f, more)) = (parts(step.before)?, parts(step.after).filter(|_| step.law == laws::FUSE_FRONT && !step.ahead)?);
        let (two, at) = (seq(f, head(more)), joined(&step.at, &[0]));
        let fused = Step { law: laws::FUSE, ahead: false, at, before: head(step.before), after: two };
        Some(vec![fused, Step { law: laws::NEST, ahead: true, before: seq(two, rest), ..step.clone() }])
    };
    steps.iter().flat_map(|step| in_two(step).unwrap_or_else(|| vec![step.clone()])).collect()
}
