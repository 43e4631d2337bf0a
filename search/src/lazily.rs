//! Certificates with steps in expressions only where laws of networks need them.
//!
//! A search clears up expressions wherever it comes by. Here its laws of networks are taken again, one by one: on a network of the same form
//! whose expressions stay as they are until a law asks for one, or the certificate ends.
use crate::draft::{joined, undone, Budget, Draft, Step};
use crate::exprs::Aim;
use crate::laws::sides_of;
use crate::places::ways_between;
use crate::read::{filled, fits, Letters};
use crate::term::{Op, Term};

/// Steps that lead from the source to the target as these do.
pub fn lazily(budget: &Budget, source: Term, target: Term, steps: &[Step]) -> Option<Vec<Step>> {
    let mut lazy = Draft::new(budget, source, 0, Aim::Normal);
    for step in steps.iter().filter(|step| step.law.is_of_nets()) {
        if take(&mut lazy, step).is_none() {
            bring(&mut lazy, &step.at, step.before)?;
            lazy.follow(&[], std::slice::from_ref(step))?;
        }
    }
    bring(&mut lazy, &[], target)?;
    Some(lazy.steps)
}

/// Takes the law of a step that is two patterns, where the expressions whose form it tells are those before the step.
fn take(lazy: &mut Draft, step: &Step) -> Option<()> {
    let (left, right) = sides_of(step.law)?;
    bring_asked(lazy, &step.at, if step.ahead { left } else { right }, step.before)?;
    if step.ahead {
        return lazy.forward(step.law, &step.at);
    }
    let mut letters = Letters::new();
    let is_given = fits(right, lazy.at(&step.at)?, &mut letters);
    let mut others = Letters::new();
    fits(left, step.after, &mut others);
    letters.extend(others);
    Some(()).filter(|()| is_given)?;
    lazy.backward(step.law, &step.at, filled(left, &letters))
}

/// Brings the expressions at a path of which a pattern tells the form to those of a network.
fn bring_asked(lazy: &mut Draft, path: &[u32], pattern: Term, wanted: Term) -> Option<()> {
    if pattern.op == Op::Letter {
        return Some(());
    }
    if pattern.op.is_expr() {
        return bring(lazy, path, wanted);
    }
    let mut kids = pattern.kids.iter().zip(wanted.kids.iter()).zip(0u32..);
    kids.try_for_each(|((part, kid), k)| bring_asked(lazy, &joined(path, &[k]), part, kid))
}

/// Brings what stands at a path to what is wanted there.
fn bring(lazy: &mut Draft, path: &[u32], wanted: Term) -> Option<()> {
    let (there, back) = ways_between(&lazy.budget, lazy.at(path)?, wanted, lazy.olds_at(path))?;
    lazy.follow(path, &there)?;
    lazy.follow(path, &undone(&back))
}
