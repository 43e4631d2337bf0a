//! Expressions rewritten by their laws, with the steps: to what costs less, to a normal form, and to forms that laws of networks want.
//!
//! An expression is rewritten from its parts to its root. `then` is carried inwards: always for the normal form, where that pays for the
//! cheapest one. What was found for an expression is kept, so that equal parts are rewritten once.
use crate::cost::{expr_cost, is_path, is_simple, own_parts};
use crate::draft::Budget;
use crate::laws;
use crate::memo::{kept, Memo};
use crate::read::{of, template};
use crate::sums;
use crate::term::{node, Op, Term};
use crate::trail::{Walk, Way};
use crate::tuning;
use crate::wires::is_wire;
use std::cell::{Cell, RefCell};
use std::cmp::Reverse;

/// How far expressions are rewritten.
#[derive(Clone, Copy, PartialEq, Eq, Hash, Debug)]
pub enum Aim {
    /// Each `then` is carried inwards, and `fst` and `snd` of pairs are opened, and nothing else is done.
    Plain,
    /// To the cheapest.
    Cheap,
    /// To terms, factors and parts in order.
    Ordered,
    /// To the normal form: the same, with products of sums multiplied out.
    Normal,
}

impl Aim {
    /// Whether terms, factors and parts are all put in order.
    pub fn orders_all(self) -> bool {
        matches!(self, Aim::Ordered | Aim::Normal)
    }
}

thread_local! {
    // What was found for expressions, each once, and how deep it is carried inwards now.
    static IMPROVED: RefCell<Memo<(u8, Term), Way>> = RefCell::default();
    static PUSHED: RefCell<Memo<(u8, Term), Way>> = RefCell::default();
    static SEEN: RefCell<Memo<(Term, Term), Option<Term>>> = RefCell::default();
    static SHARED: RefCell<Memo<Term, Way>> = RefCell::default();
    static USES: RefCell<Memo<(Term, Term), Uses>> = RefCell::default();
    static DEPTH: Cell<u32> = const { Cell::new(0) };
}

/// How many steps an expression may take: a check of each goes over all of it.
fn most_steps(e: Term) -> usize {
    tuning::MOST_EXPRESSION_STEPS.min((tuning::MOST_CHECKED / e.size) as usize)
}

/// The expression's normal form: each `then` carried inwards, differences as sums, what may stand in any order in one, then products of
/// sums multiplied out.
pub fn normal(budget: &Budget, e: Term) -> Way {
    let ordered = within(budget, Aim::Ordered, e);
    if !has_product(ordered.to) {
        return ordered;
    }
    Way::made(e, |walk| {
        walk.follow(&ordered);
        walk.then(|now| within(budget, Aim::Normal, now));
    })
}

/// The g for which `(then f g)` is e, where e uses its input by f and by the parts alone of which f is a pair.
pub fn seen_through(budget: &Budget, e: Term, f: Term) -> Option<Term> {
    kept(
        &SEEN,
        (e, f),
        || budget.left() > 0,
        || {
            let mut views = Views::default();
            views.add(f, input());
            replaced(budget, e, &views, &mut Memo::default())
        },
    )
}

/// The expression with others in place of these parts, where it uses its input by them alone.
pub fn seen_as(budget: &Budget, e: Term, parts: &[(Term, Term)]) -> Option<Term> {
    let mut views = Views::default();
    parts.iter().for_each(|&(part, to)| views.put(part, to));
    replaced(budget, e, &views, &mut Memo::default())
}

/// The way from e back to `(then f g)`, where f carried into g leads to e, or to another expression of which what costs less, or what has
/// its terms in order, or its normal form is e.
pub fn as_then(budget: &Budget, e: Term, f: Term, g: Term) -> Option<Way> {
    let mut walk = Walk::of(then(f, g));
    walk.inside(0, |f| improved(budget, Aim::Plain, f));
    walk.then(|now| pushed(budget, Aim::Plain, now));
    let further = [Aim::Cheap, Aim::Ordered, Aim::Normal].into_iter().map(|aim| reached(budget, aim, walk.now));
    let last = std::iter::once(Way::still(walk.now)).chain(further).find(|last| last.to == e)?;
    walk.follow(&last);
    Some(Way { to: then(f, g), trail: walk.done().trail.undone() })
}

/// What becomes of `(then f e)` where f is carried to each part of e that has its input.
pub fn carried(budget: &Budget, f: Term, e: Term) -> Way {
    pushed(budget, Aim::Plain, then(f, e))
}

/// `(then f g)`, of the expression that is g behind f.
pub fn as_behind(budget: &Budget, e: Term, f: Term) -> Option<Way> {
    let g = seen_through(budget, e, f)?;
    as_then(budget, e, f, g)
}

/// `(pair (then (fst x) g) (snd x))`, of the expression that is that.
pub fn as_left(budget: &Budget, e: Term) -> Option<Way> {
    as_part(budget, e, 0)
}

/// `(pair (fst x) (then (snd x) g))`, of the expression that is that.
pub fn as_right(budget: &Budget, e: Term) -> Option<Way> {
    as_part(budget, e, 1)
}

/// `(then (pair a x) (pair (fst x) (then (snd x) b)))`, of `(pair a b)`.
pub fn as_late(budget: &Budget, e: Term) -> Option<Way> {
    if e.op != Op::Pair {
        return None;
    }
    as_then(budget, e, pair(e.kids[0], input()), of("RIGHT(g)", &[('g', e.kids[1])]))
}

/// `(on x (none T) (event (then (snd x) g)))`, of the expression that is that.
pub fn as_map(budget: &Budget, e: Term) -> Option<Way> {
    let is_map = e.op == Op::On && e.kids[0].op == Op::Input && e.kids[1].op == Op::NoEvent && e.kids[2].op == Op::Event;
    if !is_map {
        return None;
    }
    let back = looked_through(budget, e.kids[2].kids[0], template("(snd x)"))?;
    let body = e.kids[2].with_kid(0, back.to);
    Some(Way { to: e.with_kid(2, body), trail: back.trail.below(&[2, 0]) })
}

/// `x`.
pub fn input() -> Term {
    node(Op::Input, &[])
}

/// `(pair a b)`.
pub fn pair(a: Term, b: Term) -> Term {
    node(Op::Pair, &[a, b])
}

/// `(then f g)`.
pub fn then(f: Term, g: Term) -> Term {
    node(Op::Then, &[f, g])
}

/// What the aim leads to from the expression.
pub fn reached(budget: &Budget, aim: Aim, e: Term) -> Way {
    if aim == Aim::Normal {
        normal(budget, e)
    } else {
        within(budget, aim, e)
    }
}

/// What the aim makes of the expression, where that takes no more steps than it may.
fn within(budget: &Budget, aim: Aim, e: Term) -> Way {
    let way = improved(budget, aim, e);
    if way.trail.len() > most_steps(e) {
        budget.cut();
        return Way::still(e);
    }
    way
}

fn improved(budget: &Budget, aim: Aim, e: Term) -> Way {
    if e.kids.is_empty() {
        return Way::still(e);
    }
    let improve = |walk: &mut Walk| {
        walk.parts(|kid| improved(budget, aim, kid));
        walk.then(|e| if e.op == Op::Then { pushed(budget, aim, e) } else { settled(budget, aim, e) });
        if aim == Aim::Cheap {
            walk.then(|e| shared(budget, e));
        }
    };
    let find = || if budget.spend(1 + e.kids.len() as u64) { Way::made(e, improve) } else { Way::still(e) };
    kept(&IMPROVED, (aim as u8, e), || budget.left() > 0, find)
}

/// What becomes of `(then f e)`, whose parts are as good as they get.
fn pushed(budget: &Budget, aim: Aim, whole: Term) -> Way {
    let depth = DEPTH.with(Cell::get);
    let is_whole = || depth < tuning::MOST_CARRIED && budget.left() > 0;
    let find = || {
        DEPTH.with(|now| now.set(depth + 1));
        let way = match whole.kids[0].op {
            _ if depth >= tuning::MOST_CARRIED || !budget.spend(1) => Way::still(whole),
            Op::Then if aim != Aim::Plain => pushed_twice(budget, aim, whole),
            _ => pushed_inwards(budget, aim, whole),
        };
        DEPTH.with(|now| now.set(depth));
        way
    };
    ended(whole).unwrap_or_else(|| kept(&PUSHED, (aim as u8, whole), is_whole, find))
}

/// What becomes of `(then (then a b) e)`.
fn pushed_twice(budget: &Budget, aim: Aim, whole: Term) -> Way {
    Way::made(whole, |walk| {
        walk.forward(laws::THEN_NEST);
        walk.inside(1, |inner| pushed(budget, aim, inner));
        walk.then(|now| pushed(budget, aim, now));
    })
}

/// What becomes of `(then f e)` where f goes to each part of e, or stays before it, whichever is aimed at.
fn pushed_inwards(budget: &Budget, aim: Aim, whole: Term) -> Way {
    let (f, e) = (whole.kids[0], whole.kids[1]);
    let fits = f.size.saturating_mul(e.size) <= tuning::MOST_PRODUCT && f.height + e.height <= tuning::MOST_SUM;
    if !fits && aim != Aim::Plain {
        return Way::still(whole);
    }
    let inner = if e.op == Op::Then { through_then(budget, aim, whole) } else { through(budget, aim, whole) };
    match aim {
        Aim::Cheap => cheaper(budget, inner, f, e),
        _ => inner,
    }
}

/// What becomes of `(then f e)` where f goes to each part of e.
fn through(budget: &Budget, aim: Aim, whole: Term) -> Way {
    Way::made(whole, |walk| {
        if walk.forward(laws::INTO_ON) {
            (0..2).for_each(|k| walk.inside(k, |part| pushed(budget, aim, part)));
            walk.part(2, |body| {
                body.part(0, |both| both.inside(0, |left| pushed(budget, aim, left)));
                body.then(|now| pushed(budget, aim, now));
            });
        } else {
            walk.forward(laws::INTO_PARTS);
            walk.parts(|part| pushed(budget, aim, part));
        }
        walk.then(|now| settled(budget, aim, now));
    })
}

/// What becomes of `(then f (then a b))`. Where f stays before a, all is left as it is: else it would be taken up again for ever. What is
/// plain stays before b.
fn through_then(budget: &Budget, aim: Aim, whole: Term) -> Way {
    let (f, e) = (whole.kids[0], whole.kids[1]);
    let before = pushed(budget, aim, then(f, e.kids[0]));
    if before.to.op == Op::Then && aim != Aim::Plain {
        return Way::still(whole);
    }
    Way::made(whole, |walk| {
        walk.backward(laws::THEN_NEST, then(then(f, e.kids[0]), e.kids[1]));
        walk.inside(0, |_| before);
        walk.then(|now| match aim {
            Aim::Plain => ended(now).unwrap_or_else(|| Way::still(now)),
            _ => pushed(budget, aim, now),
        });
    })
}

/// What the laws of its form make of the expression, whose parts are as good as they get.
fn settled(budget: &Budget, aim: Aim, e: Term) -> Way {
    if aim == Aim::Plain {
        return opened(e);
    }
    let is_certain = e.op == Op::On && e.kids[0].op == Op::Event;
    let same = Some(e).filter(|e| e.op == Op::On).and_then(|e| back_to_then(budget, e.kids[2], template("(fst x)"), e.kids[1]));
    Way::made(e, |walk| {
        if let Some(back) = same {
            walk.inside(2, |_| back);
        }
        sums::clear(aim, walk);
        if is_certain && walk.now.op == Op::Then {
            walk.then(|now| pushed(budget, aim, now));
        }
        match aim {
            Aim::Cheap => walk.then(|now| taken_out(budget, now)),
            _ => walk.then(|now| looked_at_once(budget, aim, now)),
        }
    })
}

/// An `on` of an `on` whose branches tell whether there is an event, as one.
fn looked_at_once(budget: &Budget, aim: Aim, e: Term) -> Way {
    let is_told = |branch: &Term| matches!(branch.op, Op::Event | Op::NoEvent);
    if e.op != Op::On || e.kids[0].op != Op::On || !e.kids[0].kids[1..].iter().all(is_told) {
        return Way::still(e);
    }
    Way::made(e, |walk| {
        walk.forward(laws::ON_OUT);
        walk.then(|now| improved(budget, aim, now));
    })
}

/// The expression with an `if` or `on` in it taken out, where a branch of that is known at once, and it gets smaller and costs less.
fn taken_out(budget: &Budget, e: Term) -> Way {
    let looked_at = if matches!(e.op, Op::If | Op::On) { 1 } else { own_parts(e) };
    let part = e.kids[..looked_at].iter().find(|part| part.op == Op::If || e.op == Op::On && part.op == Op::On);
    let is_wanted = part.map_or(false, |part| part.kids[1..].iter().any(|branch| is_opened(e.op, branch)));
    let law = if part.map_or(false, |part| part.op == Op::On) { laws::ON_OUT } else { laws::IF_OUT };
    let mut walk = Walk::of(e);
    if e.size > tuning::MOST_LIFTED || !is_wanted || !walk.forward(law) {
        return Way::still(e);
    }
    walk.follow(&improved(budget, Aim::Cheap, walk.now));
    let way = walk.done();
    if way.to.size < e.size && expr_cost(way.to) < expr_cost(e) {
        way
    } else {
        Way::still(e)
    }
}

/// The cheaper of what `(then f e)` is carried inwards to, and what it is where f stays before e. Nothing that is computed is copied.
fn cheaper(budget: &Budget, inner: Way, f: Term, e: Term) -> Way {
    let kept = kept_before(budget, f, e);
    let margin = if inner.to.size > kept.to.size { tuning::GROWTH_MARGIN } else { 0 };
    let is_cheaper = expr_cost(inner.to).saturating_add(margin) <= expr_cost(kept.to);
    if is_cheaper && !copies(f, e) {
        inner
    } else {
        kept
    }
}

/// The cheapest of `(then f e)`, what that is where e uses one part of its input alone, and where parts of f aren't put together anew.
fn kept_before(budget: &Budget, f: Term, e: Term) -> Way {
    let mut best = Way::still(then(f, e));
    let ways = [narrowed(budget, f, e), copied_alone(budget, f, e), put_together(budget, f, e, 0), put_together(budget, f, e, 1)];
    for found in ways.into_iter().flatten() {
        if expr_cost(found.to) < expr_cost(best.to) {
            best = found;
        }
    }
    best
}

/// `(then (pair a b) e)`, where this part of the pair puts parts of the input together: the input in its place, of which e takes those.
fn put_together(budget: &Budget, f: Term, e: Term, k: usize) -> Option<Way> {
    let part = f.kid(k).filter(|&part| f.op == Op::Pair && part.op == Op::Pair && is_put_together(part) && !is_put_together(f))?;
    let rest = of(if k == 0 { "LEFT(g)" } else { "RIGHT(g)" }, &[('g', part)]);
    rearranged(budget, f, e, f.with_kid(k, input()), rest)
}

/// `(then (pair a b) e)`, where e would copy some of what the pair is made of: these alone beside the input, and e of what is made of that.
fn copied_alone(budget: &Budget, f: Term, e: Term) -> Option<Way> {
    let parts = copied(f, e);
    if f.op != Op::Pair || parts.is_empty() {
        return None;
    }
    let first = pair(gathered(&parts), input());
    let mut views = Views::default();
    views.add(first.kids[0], template("(fst x)"));
    let rest = made_of(budget, f, &views);
    Some(rest).filter(|&rest| rest != input() && first != f).and_then(|rest| rearranged(budget, f, e, first, rest))
}

/// The pairs that f is made of, with what is seen in place of parts, and all others behind `(snd x)`.
fn made_of(budget: &Budget, f: Term, views: &Views) -> Term {
    match views.seen.get(&f) {
        Some(&to) => to,
        None if f.op == Op::Pair => pair(made_of(budget, f.kids[0], views), made_of(budget, f.kids[1], views)),
        None => carried(budget, template("(snd x)"), f).to,
    }
}

/// `(then f e)`, where f is `(then first rest)`: what is before e, and e behind the rest.
fn rearranged(budget: &Budget, f: Term, e: Term, first: Term, rest: Term) -> Option<Way> {
    let back = as_then(budget, f, first, improved(budget, Aim::Plain, rest).to)?;
    Some(Way::made(then(f, e), |walk| {
        walk.inside(0, |_| back);
        walk.forward(laws::THEN_NEST);
        walk.inside(1, |inner| pushed(budget, Aim::Cheap, inner));
        walk.then(|now| narrowed(budget, first, now.kids[1]).unwrap_or_else(|| Way::still(now)));
    }))
}

/// `(then (pair a b) e)`, where e uses one part of its input alone: `(then a e')` or `(then b e')`.
fn narrowed(budget: &Budget, f: Term, e: Term) -> Option<Way> {
    if f.op != Op::Pair {
        return None;
    }
    let first = narrowed_to(budget, f, e, template("(fst x)"), laws::FST_OF_PAIR);
    first.or_else(|| narrowed_to(budget, f, e, template("(snd x)"), laws::SND_OF_PAIR))
}

/// The same for the part at which it looks, which the law picks.
fn narrowed_to(budget: &Budget, f: Term, e: Term, look: Term, picks: laws::Law) -> Option<Way> {
    let back = looked_through(budget, e, look)?;
    let g = back.to.kids[1];
    Some(Way::made(then(f, e), |walk| {
        walk.inside(1, |_| back);
        walk.backward(laws::THEN_NEST, then(then(f, look), g));
        walk.part(0, |picked| {
            picked.forward(laws::INTO_PARTS);
            picked.inside(0, |part| Way::by(laws::INPUT_BEHIND, part));
            picked.forward(picks);
        });
    }))
}

/// The expression with what is seen written in its place; nothing where the input is left, or a wire.
fn replaced(budget: &Budget, e: Term, views: &Views, done: &mut Memo<Term, Option<Term>>) -> Option<Term> {
    if let Some(&to) = views.seen.get(&e) {
        return Some(to);
    }
    if let Some(&found) = done.get(&e) {
        return found;
    }
    if e.op == Op::Input || is_wire(e) || !budget.spend(1) {
        return None;
    }
    let found = replaced_parts(budget, e, views, done);
    done.insert(e, found);
    found
}

/// The same for each part: what is behind a `then` has another input, and the body of `on` sees its own under `fst`.
fn replaced_parts(budget: &Budget, e: Term, views: &Views, done: &mut Memo<Term, Option<Term>>) -> Option<Term> {
    let mut kids = e.kids.clone();
    for kid in kids.iter_mut().take(own_parts(e)) {
        *kid = replaced(budget, kid, views, done)?;
    }
    if e.op == Op::On {
        let lifted = lifted(budget, views);
        kids[2] = replaced(budget, e.kids[2], &lifted, &mut Memo::default())?;
    }
    Some(e.with_kids(&kids))
}

/// The views in the body of `on`: each behind `fst`, and the event as it is.
fn lifted(budget: &Budget, views: &Views) -> Views {
    let mut lifted = Views::default();
    for &(from, to) in &views.all {
        let from = pushed(budget, Aim::Plain, then(template("(fst x)"), from)).to;
        let to = pushed(budget, Aim::Plain, then(template("(fst x)"), to)).to;
        lifted.put(from, to);
    }
    lifted.put(template("(snd x)"), template("(snd x)"));
    lifted
}

/// The way from e back to `(then f g)`, for the g that is seen through f.
fn looked_through(budget: &Budget, e: Term, f: Term) -> Option<Way> {
    let g = seen_through(budget, e, f)?;
    back_to_then(budget, e, f, g)
}

/// The way from e back to `(then f g)`, where f carried into g leads to e.
fn back_to_then(budget: &Budget, e: Term, f: Term, g: Term) -> Option<Way> {
    let way = carried(budget, f, g);
    (way.to == e).then(|| Way { to: then(f, g), trail: way.trail.undone() })
}

fn as_part(budget: &Budget, e: Term, changed: usize) -> Option<Way> {
    let looks = [template("(fst x)"), template("(snd x)")];
    let mut walk = Walk::of(e);
    if e.op == Op::Input {
        walk.backward(laws::PAIR_OF_PARTS, pair(looks[0], looks[1]));
    }
    if walk.now.op != Op::Pair || walk.now.kids[1 - changed] != looks[1 - changed] {
        return None;
    }
    let back = looked_through(budget, walk.now.kids[changed], looks[changed])?;
    walk.inside(changed, |_| back);
    Some(walk.done())
}

/// The expression with a part that it computes more than once computed once, where that costs less.
fn shared(budget: &Budget, e: Term) -> Way {
    kept(
        &SHARED,
        e,
        || budget.left() > 0,
        || {
            let dear = parts_in(e).into_iter().filter(|&(part, count)| count > 1 && expr_cost(part) >= tuning::LEAST_SHARED);
            let seen = dear.filter_map(|(part, _)| seen_through(budget, e, part).map(|g| (expr_cost(then(part, g)), part, g)));
            let best = seen.filter(|found| found.0 < expr_cost(e)).min_by_key(|found| found.0);
            best.and_then(|(_, part, g)| back_to_then(budget, e, part, g)).unwrap_or_else(|| Way::still(e))
        },
    )
}

/// What stands in place of what, where an expression is seen through another.
#[derive(Default)]
struct Views {
    seen: Memo<Term, Term>,
    all: Vec<(Term, Term)>,
}

impl Views {
    /// Adds that f is seen as `to`, and of a pair also its parts as the parts of that.
    fn add(&mut self, f: Term, to: Term) {
        if f.is_constant() {
            return;
        }
        if f.op == Op::Pair {
            self.add(f.kids[0], node(Op::Fst, &[to]));
            self.add(f.kids[1], node(Op::Snd, &[to]));
        }
        self.put(f, to);
    }

    fn put(&mut self, from: Term, to: Term) {
        self.seen.entry(from).or_insert(to);
        self.all.push((from, to));
    }
}

/// Whether an operation is known at once of such a part, or of a branch of it.
fn is_opened(op: Op, part: Term) -> bool {
    match op {
        _ if part.op == Op::If => part.kids[1..].iter().any(|branch| is_opened(op, branch)),
        Op::Fst | Op::Snd => part.op == Op::Pair,
        Op::On => matches!(part.op, Op::Event | Op::NoEvent),
        Op::Nth | Op::Len => part.op == Op::List,
        _ => part.op.is_literal(),
    }
}

/// Whether the expression is made of pairs of what is simple.
fn is_put_together(e: Term) -> bool {
    is_simple(e) || e.op == Op::Pair && e.kids.iter().all(|kid| is_put_together(kid))
}

/// What becomes of a `then` before or behind `x`, or before a constant.
fn ended(whole: Term) -> Option<Way> {
    let (f, e) = (whole.kids[0], whole.kids[1]);
    let law = match (f.op, e.op) {
        (Op::Input, _) => laws::INPUT_BEFORE,
        (_, Op::Input) => laws::INPUT_BEHIND,
        _ if e.is_constant() => laws::CONSTANT_BEHIND,
        _ => return None,
    };
    Some(Way::by(law, whole))
}

/// What `fst` or `snd` of a pair is; another expression as it is.
fn opened(e: Term) -> Way {
    match e.op {
        Op::Fst => Way::by(laws::FST_OF_PAIR, e),
        Op::Snd => Way::by(laws::SND_OF_PAIR, e),
        _ => Way::still(e),
    }
}

/// Whether a part of the expression is a product.
fn has_product(e: Term) -> bool {
    e.op == Op::Mul || e.kids.iter().any(|kid| has_product(kid))
}

/// The parts of e that stand at its own input, but for paths and constants, with how often each does; so many different ones at most.
pub fn parts_in(e: Term) -> Vec<(Term, u64)> {
    let is_part = |e: Term| !is_simple(e) && !e.is_constant();
    let mut counts = Memo::default();
    let mut parts = vec![];
    let mut todo = vec![e];
    while let Some(part) = todo.pop() {
        if is_part(part) && parts.len() < tuning::MOST_PARTS && counts.insert(part, 0u64).is_none() {
            parts.push(part);
            todo.extend(part.kids[..own_parts(part)].iter().rev());
        }
    }
    parts.sort_by_key(|part| Reverse(part.size));
    counts.insert(e, 1);
    for part in &parts {
        let times = counts[part];
        for kid in &part.kids[..own_parts(part)] {
            if let Some(count) = counts.get_mut(kid) {
                *count = count.saturating_add(times);
            }
        }
    }
    parts.iter().map(|part| (*part, counts[part])).collect()
}

/// How often an expression uses what a path leads to, at most: of two branches one is taken.
#[derive(Clone, Copy, Default)]
struct Uses {
    /// The whole of it.
    whole: u64,
    /// The whole of it or a part.
    any: u64,
}

impl Uses {
    fn and(self, other: Uses) -> Uses {
        Uses { whole: self.whole.saturating_add(other.whole), any: self.any.saturating_add(other.any) }
    }

    fn or(self, other: Uses) -> Uses {
        Uses { whole: self.whole.max(other.whole), any: self.any.max(other.any) }
    }
}

/// Whether f carried into e is computed more than once where it was computed once, or a part of the pair that it is.
pub fn copies(f: Term, e: Term) -> bool {
    !copied(f, e).is_empty()
}

/// What is computed more than once then of what f is made of: what is more than a variable or a constant.
fn copied(f: Term, e: Term) -> Vec<Term> {
    let mut found = vec![];
    add_copied(&mut found, f, e, input(), 0);
    found
}

/// Adds the same of the part of f that e sees by the path, where so often e uses what that is in.
fn add_copied(found: &mut Vec<Term>, part: Term, e: Term, path: Term, outer: u64) {
    if is_simple(part) || part.is_constant() {
        return;
    }
    let uses = uses_of(e, path);
    if part.op != Op::Pair {
        if uses.any.saturating_add(outer) > 1 && !found.contains(&part) {
            found.push(part);
        }
        return;
    }
    let whole = uses.whole.saturating_add(outer);
    add_copied(found, part.kids[0], e, node(Op::Fst, &[path]), whole);
    add_copied(found, part.kids[1], e, node(Op::Snd, &[path]), whole);
}

/// Pairs of the expressions, in their order, each about as deep as the others.
pub fn gathered(parts: &[Term]) -> Term {
    match parts {
        &[one] => one,
        _ => {
            let (left, right) = parts.split_at(parts.len() / 2);
            pair(gathered(left), gathered(right))
        }
    }
}

/// How often e uses what the path leads to in its input.
fn uses_of(e: Term, path: Term) -> Uses {
    if is_path(e) {
        return Uses { whole: u64::from(e == path), any: u64::from(begins_with(e, path)) };
    }
    kept(
        &USES,
        (e, path),
        || true,
        || {
            let used: Vec<Uses> = e.kids[..own_parts(e)].iter().map(|kid| uses_of(kid, path)).collect();
            match e.op {
                Op::If => used[0].and(used[1].or(used[2])),
                Op::On => used[0].and(used[1].or(uses_of(e.kids[2], behind_first(path)))),
                _ => used.into_iter().fold(Uses::default(), Uses::and),
            }
        },
    )
}

/// Whether the path leads through what the other one leads to.
fn begins_with(path: Term, other: Term) -> bool {
    path == other || path.op != Op::Input && begins_with(path.kids[0], other)
}

/// The path in the body of an `on`, where the input is the first part.
fn behind_first(path: Term) -> Term {
    match path.op {
        Op::Input => template("(fst x)"),
        _ => path.with_kid(0, behind_first(path.kids[0])),
    }
}
