//! Parts that an expression computes more than once, computed once and handed on beside its input.
use crate::chain::head;
use crate::cost::{expr_cost, is_path, own_parts};
use crate::draft::{joined, Budget, Draft};
use crate::exprs::{as_then, carried, copies, gathered, input, pair, parts_in, seen_through, then};
use crate::laws;
use crate::print;
use crate::read::template;
use crate::term::{node, Op, Term};
use crate::trail::{Walk, Way};
use crate::tuning;
use std::cmp::Reverse;

/// `(then h e')` or `(then (pair h x) e')`, where h is a part that e computes more than once, or pairs of such parts: the one that costs
/// least of those that aren't too many steps.
pub fn made_once(budget: &Budget, e: Term) -> Option<Way> {
    let mut found = sharings(budget, e);
    found.sort_by_key(|&(f, g)| expr_cost(then(f, g)));
    found.truncate(tuning::MOST_SHARINGS);
    found.into_iter().find_map(|(f, g)| {
        let is_beside = f.op == Op::Pair && f.kids[1] == input();
        let way = if is_beside { merged(budget, e, f) } else { as_then(budget, e, f, g) };
        way.filter(|way| print::length(&way.steps()) <= tuning::MOST_SHARING_BYTES)
    })
}

/// Each f and g for which `(then f g)` is e, where f is a part that e computes more than once, or some beside the input, where that saves
/// much: what is looked at in one of two branches alone, or behind an `and`, is estimated too high.
fn sharings(budget: &Budget, e: Term) -> Vec<(Term, Term)> {
    let mut repeated: Vec<(Term, u64)> = parts_in(e).into_iter().filter(|&(_, count)| count > 1).collect();
    repeated.sort_by_key(|&(part, count)| Reverse((count - 1).saturating_mul(expr_cost(part))));
    repeated.truncate(tuning::MOST_REPEATED);
    if repeated.is_empty() || !budget.spend(e.size) {
        return vec![];
    }
    let dearest = apart(&repeated);
    let alone: Vec<Term> = repeated.iter().map(|&(part, _)| part).collect();
    repeated.sort_by_key(|&(part, count)| Reverse((count, part.size)));
    let sets = [dearest, apart(&repeated)];
    let firsts = sets.iter().flat_map(|parts| [1, 2, 4, 8].into_iter().filter_map(move |count| parts.get(..count)));
    let beside = firsts.map(|parts| pair(gathered(parts), input()));
    let seen = |f: Term| seen_through(budget, e, f).map(|g| (f, g));
    let saves = |&(f, g): &(Term, Term)| expr_cost(then(f, g)) <= expr_cost(e) / tuning::MOST_LEFT.1 * tuning::MOST_LEFT.0;
    alone.into_iter().filter_map(seen).chain(beside.filter_map(seen).filter(saves)).collect()
}

/// The first of these parts, none of which stands in another.
fn apart(parts: &[(Term, u64)]) -> Vec<Term> {
    let mut found: Vec<Term> = vec![];
    for &(part, _) in parts {
        if !found.iter().any(|&other| has(other, part) || has(part, other)) {
            found.push(part);
        }
    }
    found
}

/// Whether the one has the other as a part that has its input.
fn has(e: Term, part: Term) -> bool {
    e.size > part.size && e.kids[..own_parts(e)].iter().any(|&kid| kid == part || has(kid, part))
}

/// The way from e to `(then f g)`, where f is a pair with the input, and g is e seen through it. Where e uses nothing else of f it's the
/// way of the input.
fn merged(budget: &Budget, e: Term, f: Term) -> Option<Way> {
    let g = seen_through(budget, e, f)?;
    let behind = carried(budget, template("(snd x)"), e);
    let mut walk = Walk::of(e);
    if behind.to == g && !e.is_constant() {
        walk.backward(laws::INPUT_BEFORE, then(input(), e));
        walk.part(0, |before| before.follow(&input_beside(f)));
        walk.forward(laws::THEN_NEST);
        walk.part(1, |rest| rest.follow(&behind));
        return Some(walk.done());
    }
    if is_path(g) || e.is_constant() || e.op == Op::On {
        return as_then(budget, e, f, g);
    }
    for k in 0..own_parts(e) {
        let way = merged(budget, e.kids[k], f)?;
        walk.part(k, |part| part.follow(&way));
    }
    if e.op == Op::Then {
        walk.forward(laws::THEN_NEST);
    } else {
        walk.backward(laws::INTO_PARTS, then(f, g));
    }
    Some(walk.done())
}

/// The way from the input to `(then (pair h x) (snd x))`.
fn input_beside(f: Term) -> Way {
    let mut walk = Walk::of(input());
    walk.backward(laws::SND_OF_PAIR, node(Op::Snd, &[f]));
    walk.part(0, |whole| whole.backward(laws::INPUT_BEHIND, then(f, input())));
    walk.backward(laws::INTO_PARTS, then(f, template("(snd x)")));
    walk.done()
}

/// Has each `arr` of what stands at a path compute no part more than once.
pub fn share_all(w: &mut Draft, path: &[u32]) -> Option<()> {
    let net = w.at(path)?;
    if net.op == Op::Arr {
        return w.rewrite(each_once, path);
    }
    net.kids.iter().zip(0u32..).filter(|(kid, _)| kid.op.is_net()).try_for_each(|(_, k)| share_all(w, &joined(path, &[k])))
}

/// The expression with each part that it computes more than once computed once, and handed on beside the input.
fn each_once(budget: &Budget, e: Term) -> Option<Way> {
    let again: Vec<Term> =
        parts_in(e).into_iter().filter(|&(part, count)| count > 1 && is_again(budget, e, part)).map(|found| found.0).collect();
    let inner: Vec<Term> = again.iter().filter(|&&part| !again.iter().any(|&other| has(part, other))).copied().collect();
    if inner.is_empty() {
        return Some(Way::still(e));
    }
    if !budget.spend(e.size) {
        return None;
    }
    let way = merged(budget, e, pair(gathered(&inner), input()))?;
    let rest = each_once(budget, *way.to.kids.get(1)?)?;
    Some(Way::made(e, |walk| {
        walk.follow(&way);
        walk.inside(1, |_| rest);
    }))
}

/// Whether the expression computes the part more than once: of two branches one is taken.
fn is_again(budget: &Budget, e: Term, part: Term) -> bool {
    let f = pair(part, input());
    seen_through(budget, e, f).map_or(false, |g| copies(f, g))
}

/// Takes the `arr` before members into them, where nothing that it computes is computed by more than one of them then.
pub fn members_in(w: &mut Draft) -> Option<()> {
    let (e, members) = (w.arr_at(&[0])?, w.at(&[1]).filter(|net| net.op == Op::Par)?);
    let firsts = members.kids.iter().map(|member| head(member)).map(|first| if first.op == Op::Arr { first.kids[0] } else { input() });
    if copies(e, firsts.reduce(pair)?) {
        return None;
    }
    w.forward(laws::MEMBERS_IN, &[])
}
