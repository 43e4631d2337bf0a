//! Expressions cleared up at their root: what is known is computed, and the terms of sums and the factors of products are put in order.
use crate::chain::links;
use crate::exprs::Aim;
use crate::laws::{self, Law};
use crate::term::{int, node, Op, Term};
use crate::trail::{Walk, Way};
use crate::tuning;
use std::cmp::Ordering;

/// Takes the first law of its form that fits an expression, whose parts are done; else puts the terms of a sum or product in order, takes what
/// a part of an `and`, `or` or `equal` decides, and for the normal form makes a difference or a product of sums a sum.
pub fn clear(aim: Aim, walk: &mut Walk) {
    if laws_of(walk.now.op).iter().any(|&law| walk.forward(law)) {
        return;
    }
    let e = walk.now;
    match e.op {
        Op::Sub if aim.orders_all() && e.height <= tuning::MOST_DIFFERENCE => {
            walk.forward(laws::SUB_AS_ADD);
            clear_with(aim, &[1], walk);
        }
        Op::Neg if aim.orders_all() => negate(aim, walk),
        Op::Mul if aim.orders_all() && e.kids.iter().any(|kid| kid.op == Op::Neg) => negate_product(aim, walk),
        Op::Mul if wants_multiplying(aim, e) => multiply(aim, walk),
        Op::And | Op::Or if aim.orders_all() && !e.kids.iter().any(|kid| kid.op.is_literal()) && may_nest(e) => order(aim, e.op, walk),
        Op::And | Op::Or => decide(aim, laws::AND_OR, walk),
        Op::Not if aim.orders_all() => negate_truth(aim, walk),
        Op::If | Op::On if aim.orders_all() && e.kids[1..].iter().any(|kid| kid.op == Op::Pair) => halve(aim, walk),
        Op::Equal => decide(aim, laws::EQUAL, walk),
        _ => order_terms(aim, walk),
    }
}

/// Clears up parts of an expression, and then itself.
fn clear_with(aim: Aim, parts: &[usize], walk: &mut Walk) {
    parts.iter().for_each(|&k| walk.part(k, |part| clear(aim, part)));
    clear(aim, walk);
}

/// The laws that clear up an expression of this form.
fn laws_of(op: Op) -> &'static [Law] {
    match op {
        Op::Fst => &[laws::FST_OF_PAIR],
        Op::Snd => &[laws::SND_OF_PAIR],
        Op::Pair => &[laws::PAIR_OF_PARTS],
        Op::If => &[laws::IF_TRUE, laws::IF_FALSE, laws::IF_SAME, laws::IF_NOT, laws::IF_TRUTH, laws::IF_THEN_IF, laws::IF_ELSE_IF],
        Op::On => &[laws::ON_NONE, laws::ON_EVENT, laws::ON_ITSELF, laws::ON_SAME],
        Op::Nth => &[laws::NTH_KNOWN],
        Op::Not => &[laws::COMPUTE, laws::NOT_NOT],
        Op::Neg => &[laws::COMPUTE, laws::NEG_NEG],
        Op::Add => &[laws::COMPUTE, laws::ADD_ZERO, laws::ADD_NEG],
        Op::Mul => &[laws::COMPUTE, laws::MUL_ZERO, laws::MUL_ONE],
        Op::Less => &[laws::COMPUTE, laws::LESS_SAME],
        Op::And => &[laws::COMPUTE, laws::AND_SAME, laws::AND_NOT],
        Op::Or => &[laws::COMPUTE, laws::OR_SAME, laws::OR_NOT],
        Op::Sub | Op::Equal => &[laws::COMPUTE],
        _ => &[],
    }
}

/// Makes an `if` or `on` of which a branch is a pair a pair of two.
fn halve(aim: Aim, walk: &mut Walk) {
    let halves = [node(Op::Fst, &[walk.now]), node(Op::Snd, &[walk.now])];
    walk.backward(laws::PAIR_OF_PARTS, node(Op::Pair, &halves));
    (0..2).for_each(|k| walk.part(k, |half| in_branches(aim, half)));
}

/// Makes `fst`, `snd` or `neg` of an `if` or `on` one of those of its branches.
fn in_branches(aim: Aim, walk: &mut Walk) {
    if !walk.forward(laws::IF_OUT) {
        let (half, on, input) = (walk.now, walk.now.kids[0], node(Op::Input, &[]));
        walk.part(0, |inner| inner.backward(laws::INPUT_BEHIND, node(Op::Then, &[on, input])));
        walk.backward(laws::INTO_PARTS, node(Op::Then, &[on, half.with_kid(0, input)]));
        walk.forward(laws::ON_THEN);
        for k in 1..3 {
            walk.part(k, |branch| branch.perhaps(laws::INTO_PARTS));
            walk.part(k, |branch| branch.part(0, |part| part.perhaps(laws::INPUT_BEHIND)));
        }
    }
    clear_with(aim, &[1, 2], walk);
}

/// Makes a negated sum one of negated terms, a negated product with a literal one with the negated literal; negates the branches of an `on`.
fn negate(aim: Aim, walk: &mut Walk) {
    if walk.now.kids[0].op == Op::On {
        in_branches(aim, walk);
    } else if walk.forward(laws::NEG_SUM) {
        clear_with(aim, &[0, 1], walk);
    } else if factor(walk.now.kids[0]).is_some() {
        make_multiple(walk);
        drop_factor(walk);
    }
}

/// Makes a product with a negated factor the negated product.
fn negate_product(aim: Aim, walk: &mut Walk) {
    if walk.now.kids[0].op != Op::Neg {
        walk.forward(laws::MUL_SWAP);
    }
    let product = node(Op::Mul, &[walk.now.kids[0].kids[0], walk.now.kids[1]]);
    walk.backward(laws::NEG_PRODUCT, node(Op::Neg, &[product]));
    clear_with(aim, &[0], walk);
}

/// Makes a negated `and` or `or` an `or` or `and` of what is negated.
fn negate_truth(aim: Aim, walk: &mut Walk) {
    if walk.forward(laws::NOT_AND) || walk.forward(laws::NOT_OR) {
        clear_with(aim, &[0, 1], walk);
    }
}

/// The literal that is the last factor of a product.
fn factor(e: Term) -> Option<i64> {
    let last = e.kid(1).filter(|_| e.op == Op::Mul)?;
    factor(last).or_else(|| Some(last.number).filter(|_| last.op == Op::Int))
}

/// Makes a term a product with a literal last, behind which no factor is negated.
fn make_multiple(walk: &mut Walk) {
    let e = walk.now;
    match e.op {
        Op::Neg if e.kids[0].op != Op::Int => {
            walk.part(0, make_multiple);
            walk.part(0, |product| product.perhaps(laws::MUL_SWAP));
            walk.forward(laws::NEG_PRODUCT);
            walk.forward(laws::MUL_SWAP);
            walk.part(1, make_multiple);
        }
        Op::Mul if factor(e).is_none() => walk.part(1, make_multiple),
        Op::Int | Op::Neg | Op::Mul => walk.perhaps(laws::COMPUTE),
        _ => walk.backward(laws::MUL_ONE, node(Op::Mul, &[e, int(1)])),
    }
}

/// Drops the literal that a product ends in where it is 1, makes the product that where it is 0, and negates it where it is -1.
fn drop_factor(walk: &mut Walk) {
    let e = walk.now;
    match factor(e) {
        Some(0 | 1) if e.kids[1].op == Op::Mul => {
            walk.part(1, drop_factor);
            walk.forward(laws::MUL_ZERO);
        }
        Some(0) => walk.perhaps(laws::MUL_ZERO),
        Some(1) => walk.perhaps(laws::MUL_ONE),
        Some(-1) => {
            let negated = node(Op::Neg, &[Way::made(with_factor(e, 1), drop_factor).to]);
            let back = Way::made(negated, make_multiple);
            if back.to == e {
                walk.follow(&Way { to: negated, trail: back.trail.undone() });
            }
        }
        _ => {}
    }
}

/// The product with another literal last.
fn with_factor(e: Term, number: i64) -> Term {
    let last = e.kids[1];
    e.with_kid(1, if last.op == Op::Mul { with_factor(last, number) } else { int(number) })
}

/// A term without the literal factor that it ends in, and not negated: terms of which that is the same are made one.
fn base(e: Term) -> Term {
    match e.op {
        Op::Neg | Op::Not => base(e.kids[0]),
        Op::Mul if e.kids[1].op == Op::Int => e.kids[0],
        Op::Mul if factor(e).is_some() => e.with_kid(1, base(e.kids[1])),
        _ => e,
    }
}

/// Takes what a part decides; else puts the parts in order, where that is aimed at.
fn decide(aim: Aim, law: Law, walk: &mut Walk) {
    if wants_swap(aim, walk.now) {
        walk.forward(law);
    }
    let (a, b) = (walk.now.kids[0], walk.now.kids[1]);
    if if walk.now.op == Op::Equal { a == b } else { a.op.is_literal() } {
        walk.forward(law);
    }
}

/// Whether the second part is to stand first: a literal, and for the normal form what the order puts first.
fn wants_swap(aim: Aim, e: Term) -> bool {
    let (a, b) = (e.kids[0], e.kids[1]);
    if e.op != Op::Equal && (a.op.is_literal() || b.op.is_literal()) {
        return b.op.is_literal();
    }
    aim.orders_all() && is_after(aim, a, b)
}

/// Whether the one term is to come behind the other: literals behind all others, and for the normal form each where its form and its
/// parts put it.
fn is_after(aim: Aim, a: Term, b: Term) -> bool {
    if aim.orders_all() {
        return compared(base(a), base(b)).then_with(|| compared(a, b)) == Ordering::Greater;
    }
    a.op.is_literal() && !b.op.is_literal()
}

/// The order of two expressions: by their forms, then by their own numbers, then part by part.
pub fn compared(a: Term, b: Term) -> Ordering {
    if a == b {
        return Ordering::Equal;
    }
    let own = (a.op, a.number, a.kids.len()).cmp(&(b.op, b.number, b.kids.len()));
    let parts = a.kids.iter().zip(b.kids.iter()).map(|(a, b)| compared(a, b));
    parts.fold(own, Ordering::then)
}

/// The laws of `add` or `mul`: of exchanged terms, and of three terms nested to the right.
fn sorting_laws(op: Op) -> (Law, Law) {
    match op {
        Op::Mul => (laws::MUL_SWAP, laws::MUL_NEST),
        Op::And => (laws::AND_OR, laws::AND_NEST),
        Op::Or => (laws::AND_OR, laws::OR_NEST),
        _ => (laws::ADD_SWAP, laws::ADD_NEST),
    }
}

/// Puts the terms of a sum or product in order, where that is aimed at: of any for the normal form, for the cheapest one of two literals or
/// more, or of a literal before another term of a sum.
fn order_terms(aim: Aim, walk: &mut Walk) {
    let e = walk.now;
    let begins_with_literal = e.op == Op::Add && e.kids[0].op.is_literal() && e.kids[1].op != Op::Add;
    let literals = || links(e.op, e).iter().filter(|term| term.op.is_literal()).count();
    let is_wanted = matches!(e.op, Op::Add | Op::Mul) && (aim.orders_all() || begins_with_literal || literals() > 1);
    if is_wanted && may_nest(e) {
        order(aim, e.op, walk);
        if walk.now.op == Op::Mul && aim.orders_all() {
            drop_factor(walk);
        }
    }
}

/// Whether the terms, nested to the right, are within the limits of expressions.
fn may_nest(e: Term) -> bool {
    let terms = links(e.op, e);
    terms.iter().fold(0, |most, term| term.height.max(most)) + terms.len() as u32 <= tuning::MOST_SUM
}

/// Nests the terms to the right, and puts them in order.
fn order(aim: Aim, op: Op, walk: &mut Walk) {
    if walk.now.op != op {
        return;
    }
    if walk.forward(sorting_laws(op).1) {
        return order(aim, op, walk);
    }
    walk.part(1, |rest| order(aim, op, rest));
    insert(aim, walk);
}

/// Puts a term in its place among others that are in order.
fn insert(aim: Aim, walk: &mut Walk) {
    let (e, term, rest) = (walk.now, walk.now.kids[0], walk.now.kids[1]);
    let has_more = rest.op == e.op;
    let next = if has_more { rest.kids[0] } else { rest };
    let joined = are_one(aim, e.op, term, next);
    if !joined && !is_after(aim, term, next) {
        return;
    }
    if !has_more {
        return pair_up(joined, walk);
    }
    let (_, nest) = sorting_laws(e.op);
    walk.backward(nest, node(e.op, &[node(e.op, &[term, next]), rest.kids[1]]));
    walk.part(0, |two| pair_up(joined, two));
    if joined {
        insert_known(aim, walk);
    } else {
        walk.forward(nest);
        walk.part(1, |rest| insert(aim, rest));
    }
}

/// Puts what two terms were made in its place among others that are in order; leaves it out where it is 0, and the others where it decides.
fn insert_known(aim: Aim, walk: &mut Walk) {
    let op = walk.now.op;
    if !walk.now.kids[0].op.is_literal() || op == Op::Mul {
        return insert(aim, walk);
    }
    walk.forward(sorting_laws(op).0);
    if op == Op::Add && !walk.forward(laws::ADD_ZERO) {
        walk.forward(laws::ADD_SWAP);
        insert(aim, walk);
    }
}

/// Puts two terms in the other order, or makes them one.
fn pair_up(joined: bool, walk: &mut Walk) {
    if joined {
        make_one(walk);
    } else {
        walk.forward(sorting_laws(walk.now.op).0);
    }
}

/// Whether two terms are made one: literals; for the normal form those of a sum that differ in their literal factor alone, and truths that
/// are the same or of which one is the other negated.
fn are_one(aim: Aim, op: Op, a: Term, b: Term) -> bool {
    (a.op.is_literal() && b.op.is_literal()) || (aim.orders_all() && op != Op::Mul && base(a) == base(b))
}

/// Makes two terms one.
fn make_one(walk: &mut Walk) {
    let (a, b) = (walk.now.kids[0], walk.now.kids[1]);
    let is_known = laws_of(walk.now.op).iter().any(|&law| walk.forward(law));
    if is_known || walk.now.op != Op::Add {
        return;
    }
    if b.op == Op::Neg && b.kids[0] == a || a.op == Op::Neg && a.kids[0] == b {
        walk.forward(laws::ADD_SWAP);
        walk.forward(laws::ADD_NEG);
    } else {
        (0..2).for_each(|k| walk.part(k, make_multiple));
        add_factors(walk);
        drop_factor(walk);
    }
}

/// Makes the sum of two products that differ in the literal factor alone one, with that of both added.
fn add_factors(walk: &mut Walk) {
    let (op, a, b) = (walk.now.op, walk.now.kids[0], walk.now.kids[1]);
    if a.op == Op::Mul && b.op == Op::Mul {
        walk.backward(laws::MUL_SUM, node(Op::Mul, &[a.kids[0], node(op, &[a.kids[1], b.kids[1]])]));
        walk.part(1, add_factors);
    } else {
        walk.forward(laws::COMPUTE);
    }
}

/// Whether the expression is a product of which a factor is a sum, that is to be a sum itself: for the normal form, within limits.
fn wants_multiplying(aim: Aim, e: Term) -> bool {
    let (a, b) = (e.kids[0], e.kids[1]);
    if aim != Aim::Normal || (a.op != Op::Add && b.op != Op::Add) {
        return false;
    }
    let (m, n) = (links(Op::Add, a).len() as u32, links(Op::Add, b).len() as u32);
    let terms = m.saturating_mul(n);
    let size = a.size.saturating_mul(u64::from(n)).saturating_add(b.size.saturating_mul(u64::from(m)));
    let height = a.height.saturating_add(b.height).saturating_add(terms);
    terms <= tuning::MOST_TERMS && size <= tuning::MOST_TERMS_SIZE && height <= tuning::MOST_SUM
}

/// Multiplies a product out as long as a factor is a sum; puts terms and factors in order.
fn multiply(aim: Aim, walk: &mut Walk) {
    let e = walk.now;
    if e.op == Op::Mul && e.kids[0].op == Op::Add && e.kids[1].op != Op::Add {
        walk.forward(laws::MUL_SWAP);
    }
    if walk.forward(laws::MUL_SUM) {
        (0..2).for_each(|k| walk.part(k, |term| multiply(aim, term)));
    }
    order_terms(aim, walk);
}
