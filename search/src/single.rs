//! Networks as at most one loop round one chain `(arr (pair e1 x)) (first b1) (arr (pair e2 x)) (first b2) .. (arr out)`.
//!
//! Each stage adds what a box outputs to all that was there. Cells, holds and accumulators become states of the loop.
use crate::chain::behind;
use crate::draft::{joined, undone, Budget, Draft, Step};
use crate::exprs::{normal, pair, then, Aim};
use crate::laws::{self, Law};
use crate::read::{of, template};
use crate::term::{node, put, Op, Term};
use crate::tuning::{LOOK, MOST_BESIDE, MOST_SINGLE_SIZE, MOST_SINGLE_STEPS};
use crate::types::told_type;
use crate::wires::{places, reduce, wire, Graph, WIRE};

/// A network as such a one, without what nothing needs, with the steps.
pub struct Formed {
    /// The network.
    pub net: Term,
    /// The steps.
    pub steps: Vec<Step>,
    /// Whether it is that, which nothing kept the search from.
    pub is_done: bool,
}

/// The normal form of a network, where so many frozen networks are in scope, as far as the search comes.
pub fn normal_form(budget: &Budget, net: Term, olds: usize) -> Formed {
    let mut d = Draft::new(budget, net, olds, Aim::Normal);
    if net.size <= MOST_SINGLE_SIZE && reduced(&mut d, &[]).is_some() {
        return Formed { net: d.net(), steps: d.steps, is_done: budget.is_whole() };
    }
    Formed { net, steps: vec![], is_done: false }
}

/// Makes the network at a path such a one.
pub fn single(d: &mut Draft, path: &[u32]) -> Option<()> {
    if !d.budget.spend(LOOK) || d.steps.len() > MOST_SINGLE_STEPS {
        d.budget.cut();
        return None;
    }
    match d.at(path)?.op {
        Op::Arr => d.clear(&joined(path, &[0])),
        Op::Seq if takes(d, &[laws::R_SWITCH_NEVER, laws::DR_SWITCH_NEVER, laws::MEMBER], path) => single(d, path),
        Op::Seq => chain(d, path),
        Op::First => first(d, path),
        Op::LoopPre => {
            d.clear(&joined(path, &[0]))?;
            single(d, &joined(path, &[1]))?;
            again_by(d, laws::LOOP_INNER, path).or(Some(()))
        }
        Op::IPre => again_by(d, laws::CELL_LOOP, path),
        Op::Hold => again_by(d, laws::HOLD_LOOP, path),
        Op::AccumBy => accumulator(d, path),
        _ => {
            if is_opened(d, path)? {
                single(d, path)
            } else {
                boxed(d, path)
            }
        }
    }
}

/// The laws that make less of a box.
const BOX_LAWS: &[Law] =
    &[laws::K_SWITCH_NEVER, laws::INITIAL_TWICE, laws::INITIAL_ARR, laws::INITIAL_CELL, laws::SWITCH_SAME, laws::D_SWITCH_SAME];

/// Takes the first of these laws that fits; whether one does.
fn takes(d: &mut Draft, laws: &[Law], path: &[u32]) -> bool {
    laws.iter().any(|&law| d.forward(law, path).is_some())
}

fn again_by(d: &mut Draft, law: Law, path: &[u32]) -> Option<()> {
    d.forward(law, path)?;
    single(d, path)
}

/// An accumulator as a loop, where the type of its values is known.
fn accumulator(d: &mut Draft, path: &[u32]) -> Option<()> {
    let (g, start) = (d.at(path)?.kids[0], d.at(path)?.kids[1]);
    let carried = match told_type(start) {
        Some(carried) => carried,
        None => {
            (0..2).try_for_each(|k| d.clear(&joined(path, &[k])))?;
            return boxed(d, path);
        }
    };
    d.backward(laws::LOOP_ACCUM, path, of("(loopPre z (arr ACCUM(g)))", &[('g', g), ('z', start), ('T', carried)]))?;
    single(d, path)
}

/// Whether an expression is the same at every sample.
pub fn is_closed(e: Term) -> bool {
    e.is_constant() || matches!(e.op, Op::Pair | Op::Event | Op::List) && e.kids.iter().all(|kid| is_closed(kid))
}

/// Makes the parts of a box such networks; whether it is no box then.
fn is_opened(d: &mut Draft, path: &[u32]) -> Option<bool> {
    for (k, kid) in d.at(path)?.kids.iter().enumerate() {
        let way = joined(path, &[k as u32]);
        if kid.op.is_net() {
            reduced(d, &way)?;
        } else {
            d.clear(&way)?;
        }
    }
    Some(
        takes(d, BOX_LAWS, path)
            || event_of_unit(d, path).is_some()
            || never(d, path).is_some()
            || members(d, path).is_some()
            || first_of_constant(d, path).is_some(),
    )
}

/// A first output before a constant as a cell of that constant.
fn first_of_constant(d: &mut Draft, path: &[u32]) -> Option<()> {
    let constant = d.at(path).filter(|net| net.op == Op::InitialOut && net.kids[1].op == Op::Arr)?.kids[1].kids[0];
    let way = joined(path, &[1]);
    go_back_by(d, &way, of("(>>> (arr k) (iPre k))", &[('k', constant)]), reduced)?;
    d.forward(laws::INITIAL_LAST, path)?;
    d.forward(laws::INITIAL_CELL, &way)
}

/// Members, which get the same, as a list of what boxes behind one another output, where the form of one tells the type of that.
fn members(d: &mut Draft, path: &[u32]) -> Option<()> {
    let all = d.at(path).filter(|net| net.op == Op::Par && net.kids.len() <= MOST_BESIDE)?;
    let element = all.kids.iter().find_map(|f| told_output(&d.budget, f))?;
    let (last, others) = all.kids.split_last()?;
    let front = others.iter().rev().fold(*last, |more, f| of("(&&& f g)", &[('f', f), ('g', more)]));
    let parts: Vec<Term> = places(all.kids.len(), template("x"));
    for (k, part) in (0..).zip(&parts) {
        let way = joined(path, &[k]);
        go_back_by(d, &way, of("(>>> f (arr e))", &[('f', front), ('e', part)]), reduced)?;
    }
    let looks = parts.iter().map(|&part| node(Op::Arr, &[part])).collect::<Vec<Term>>();
    d.backward(laws::MEMBERS_IN, path, node(Op::Seq, &[front, node(Op::Par, &looks)]))?;
    d.backward(laws::MEMBERS_ARR, &joined(path, &[1]), node(Op::Arr, &[put(Op::List, 0, Some(element), &parts)]))
}

/// The type of what such a network outputs, where its form tells that.
fn told_output(budget: &Budget, net: Term) -> Option<Term> {
    let graph = Graph::of(budget, Form::read(net)?)?;
    let own = graph.wires.iter().position(|&wire| wire == graph.shown).map(|i| graph.form.stages[i].1);
    let state = (1..).zip(&graph.states).find(|(k, _)| wire(WIRE + k) == graph.shown).map(|(_, state)| state.start);
    told_type(own.or(state).unwrap_or(graph.shown))
}

/// Makes the network at a path such a one, without what nothing needs.
pub fn reduced(d: &mut Draft, path: &[u32]) -> Option<()> {
    single(d, path)?;
    reduce(d, path)
}

/// A chain: its elements one by one, then joined from left to right, loops round all.
fn chain(d: &mut Draft, path: &[u32]) -> Option<()> {
    let mut way = path.to_vec();
    let mut looped = vec![];
    loop {
        while d.forward(laws::NEST, &way).is_some() {}
        let more = d.at(&way)?.op == Op::Seq;
        let here = if more { joined(&way, &[0]) } else { way.clone() };
        element(d, &here)?;
        looped.push(d.at(&here)?.op == Op::LoopPre);
        if !more {
            break;
        }
        way.push(1);
    }
    let mut is_loop = looped.pop()?;
    for (i, here) in looped.into_iter().enumerate().rev() {
        if here || is_loop {
            if !is_loop {
                join(d, &behind(path, i + 1))?;
            }
            let law = if here { laws::LOOP_OUT } else { laws::LOOP_IN };
            again_by(d, law, &behind(path, i))?;
            is_loop = true;
        }
    }
    if is_loop {
        Some(())
    } else {
        join(d, path)
    }
}

/// An element of a chain: a `first` of a box stays as it is.
fn element(d: &mut Draft, path: &[u32]) -> Option<()> {
    let inner = d.at(path)?.kid(0);
    let is_open = |op| matches!(op, Op::Arr | Op::Seq | Op::First | Op::LoopPre | Op::IPre | Op::Hold | Op::AccumBy);
    if d.at(path)?.op != Op::First || is_open(inner?.op) || is_opened(d, &joined(path, &[0]))? {
        return single(d, path);
    }
    Some(())
}

fn join(d: &mut Draft, path: &[u32]) -> Option<()> {
    flat(d, path)?;
    tidy(d, path)
}

/// `after` and `repeatedly` make events of `unit`, and an `arr` their values.
fn event_of_unit(d: &mut Draft, path: &[u32]) -> Option<()> {
    let timer = d.at(path)?;
    let law = match timer.op {
        Op::After => laws::AFTER_MAP,
        Op::Repeatedly => laws::REPEATEDLY_MAP,
        _ => return None,
    };
    let (c, unit) = (timer.kids[0], template("unit"));
    if c == unit || !is_closed(c) {
        return None;
    }
    let map = of("(arr MAP(c))", &[('c', c), ('T', told_type(c)?)]);
    turn(d, &joined(path, &[0]), then(unit, c))?;
    d.backward(law, path, node(Op::Seq, &[timer.with_kids(&[unit]), map]))
}

/// A switch that never switches becomes its first part.
fn never(d: &mut Draft, path: &[u32]) -> Option<()> {
    let law = match d.at(path)?.op {
        Op::Switch => laws::SWITCH_NEVER,
        Op::DSwitch => laws::D_SWITCH_NEVER,
        _ => return None,
    };
    let way = joined(path, &[0]);
    let first = d.at(&way)?;
    let form = Form::read(first)?;
    let out = form.shown(&d.budget);
    let none = part(&d.budget, Op::Snd, out);
    if none.op != Op::NoEvent {
        return None;
    }
    let rest = part(&d.budget, Op::Fst, out);
    let g = form.with_shown(&d.budget, rest).write();
    let wanted = of("(>>> g (arr (pair x n)))", &[('g', g), ('n', none)]);
    go_back(d, &way, wanted)?;
    d.forward(law, path)
}

/// Goes back from such a network at a path to a network of which it is made.
pub fn go_back(d: &mut Draft, path: &[u32], wanted: Term) -> Option<()> {
    go_back_by(d, path, wanted, single)
}

/// Goes back from what stands at a path to a network of which that makes it.
fn go_back_by(d: &mut Draft, path: &[u32], wanted: Term, making: fn(&mut Draft, &[u32]) -> Option<()>) -> Option<()> {
    let mut made = Draft::new(&d.budget, wanted, d.olds_at(path), Aim::Normal);
    making(&mut made, &[])?;
    Some(()).filter(|()| d.at(path) == Some(made.net()))?;
    d.took(path, wanted, &undone(&made.steps))
}

/// Turns the expression at a path into another one of the same normal form.
pub fn turn(d: &mut Draft, path: &[u32], e: Term) -> Option<()> {
    let there = normal(&d.budget, d.at(path)?);
    let back = normal(&d.budget, e);
    if there.to != back.to {
        return None;
    }
    d.took(path, there.to, &there.steps())?;
    d.took(path, e, &undone(&back.steps()))
}

/// A box alone: `(>>> (arr (pair x x)) (>>> (first b) (arr (fst x))))`.
fn boxed(d: &mut Draft, path: &[u32]) -> Option<()> {
    d.back(laws::IDENTITY_FRONT, path)?;
    turn(d, &joined(path, &[0, 0]), template("(then (pair x x) (fst x))"))?;
    d.back(laws::FUSE, &joined(path, &[0]))?;
    d.forward(laws::NEST, path)?;
    d.back(laws::FIRST_HEARD, &joined(path, &[1]))?;
    tidy(d, path)
}

fn first(d: &mut Draft, path: &[u32]) -> Option<()> {
    single(d, &joined(path, &[0]))?;
    if d.forward(laws::LOOP_FIRST, path).is_some() {
        return single(d, path);
    }
    first_of_chain(d, path)?;
    join(d, path)
}

/// `first` past the elements of a chain.
fn first_of_chain(d: &mut Draft, path: &[u32]) -> Option<()> {
    let mut way = path.to_vec();
    loop {
        let more = d.forward(laws::FIRST_CHAIN, &way).is_some();
        let here = if more { joined(&way, &[0]) } else { way.clone() };
        if d.forward(laws::FIRST_ARR, &here).is_none() {
            d.back(laws::IDENTITY_BACK, &here)?;
            turn(d, &joined(&here, &[1, 0]), template("(then ASSOC UNASSOC)"))?;
            d.back(laws::FUSE, &joined(&here, &[1]))?;
            d.back(laws::NEST, &here)?;
            d.forward(laws::FIRST_TWICE, &joined(&here, &[0]))?;
        }
        if !more {
            return Some(());
        }
        way.push(1);
    }
}

/// Nests a chain to the right, its neighbouring `arr`s joined.
pub fn flat(d: &mut Draft, path: &[u32]) -> Option<()> {
    let mut way = path.to_vec();
    loop {
        while d.forward(laws::NEST, &way).is_some() {}
        if d.at(&way)?.op != Op::Seq {
            break;
        }
        if d.at(&joined(&way, &[0]))?.op == Op::Arr {
            while d.forward(laws::NEST, &joined(&way, &[1])).is_some() {}
            if takes(d, &[laws::FUSE, laws::FUSE_FRONT], &way) {
                continue;
            }
            d.clear(&joined(&way, &[0, 0]))?;
        }
        way.push(1);
    }
    if d.at(&way)?.op == Op::Arr {
        d.clear(&joined(&way, &[0]))?;
    }
    Some(())
}

/// Gives each stage of a flat chain the form `(arr (pair e x)) (first b)`, from left to right.
fn tidy(d: &mut Draft, path: &[u32]) -> Option<()> {
    let mut way = path.to_vec();
    while d.at(&way)?.op != Op::Arr {
        if d.at(&way)?.op == Op::First {
            d.back(laws::IDENTITY_BACK, &way)?;
        }
        if d.at(&joined(&way, &[0]))?.op == Op::First {
            d.back(laws::IDENTITY_FRONT, &way)?;
        }
        if d.at(&joined(&way, &[1]))?.op == Op::First {
            d.back(laws::IDENTITY_BACK, &joined(&way, &[1]))?;
        }
        let b = d.at(&joined(&way, &[1, 0, 0]))?;
        let e = d.at(&joined(&way, &[0, 0]))?;
        let (a, g) = (part(&d.budget, Op::Fst, e), part(&d.budget, Op::Snd, e));
        if matches!(b.op, Op::Time | Op::After | Op::Repeatedly) && a.op != Op::Unit {
            unread(d, &way, b)?;
            continue;
        }
        if g.op != Op::Input {
            push_back(d, &way, a, g)?;
        }
        way.extend([1, 1]);
    }
    d.clear(&joined(&way, &[0]))
}

/// At `(>>> (arr (pair a g)) (>>> (first b) r))`: g is done behind b.
fn push_back(d: &mut Draft, way: &[u32], a: Term, g: Term) -> Option<()> {
    turn(d, &joined(way, &[0, 0]), of("(then (pair a x) RIGHT(g))", &[('a', a), ('g', g)]))?;
    d.back(laws::FUSE_FRONT, way)?;
    d.back(laws::NEST, &joined(way, &[1]))?;
    d.back(laws::EXCHANGE, &joined(way, &[1, 0]))?;
    d.forward(laws::NEST, &joined(way, &[1]))?;
    let next = joined(way, &[1, 1]);
    if d.forward(laws::FUSE, &next).is_some() {
        d.clear(&joined(&next, &[0]))
    } else if d.forward(laws::FUSE_FRONT, &next).is_some() {
        d.clear(&joined(&next, &[0, 0]))
    } else {
        Some(())
    }
}

/// The normal form of a part of a pair.
pub fn part(budget: &Budget, half: Op, e: Term) -> Term {
    normal(budget, node(half, &[e])).to
}

/// What goes to a box that reads no input becomes `unit`.
fn unread(d: &mut Draft, way: &[u32], b: Term) -> Option<()> {
    let first = joined(way, &[1, 0]);
    d.backward(laws::SOURCE, &joined(&first, &[0]), of("(>>> (arr (then unit unit)) b)", &[('b', b)]))?;
    d.forward(laws::FIRST_CHAIN, &first)?;
    d.forward(laws::FIRST_ARR, &joined(&first, &[0]))?;
    d.forward(laws::NEST, &joined(way, &[1]))?;
    d.forward(laws::FUSE_FRONT, way)?;
    d.clear(&joined(way, &[0, 0]))
}

/// Such a network, taken apart.
#[derive(Clone, Debug)]
pub struct Form {
    /// What its loop starts with, if it has one.
    pub init: Option<Term>,
    /// What each box gets, and the box.
    pub stages: Vec<(Term, Term)>,
    /// What comes out, of a loop beside what is fed back.
    pub out: Term,
}

impl Form {
    /// The network, taken apart, where it is such a one.
    pub fn read(net: Term) -> Option<Form> {
        let init = net.kid(0).filter(|_| net.op == Op::LoopPre);
        let mut at = if init.is_some() { net.kids[1] } else { net };
        let mut stages = vec![];
        while at.op == Op::Seq {
            let (arr, rest) = (at.kids[0], at.kids[1]);
            stages.push((arr.kid(0)?.kid(0)?, rest.kid(0)?.kid(0)?));
            at = rest.kid(1)?;
        }
        Some(Form { init, stages, out: at.kid(0)? })
    }

    /// The network.
    pub fn write(&self) -> Term {
        self.upto(0, self.rest(0))
    }

    /// So many of its stages, then another chain.
    pub fn upto(&self, count: usize, tail: Term) -> Term {
        let chain = chain_of(&self.stages[..count], tail);
        self.init.map_or(chain, |init| node(Op::LoopPre, &[init, chain]))
    }

    /// The chain from a stage on.
    pub fn rest(&self, from: usize) -> Term {
        chain_of(&self.stages[from..], node(Op::Arr, &[self.out]))
    }

    /// The way to a stage, where the network stands at a path.
    pub fn way_to(&self, path: &[u32], stage: usize) -> Vec<u32> {
        let loops = if self.init.is_some() { 1 } else { 0 };
        behind(path, loops + 2 * stage)
    }

    /// What comes out, without what is fed back.
    pub fn shown(&self, budget: &Budget) -> Term {
        if self.init.is_some() {
            part(budget, Op::Fst, self.out)
        } else {
            self.out
        }
    }

    fn with_shown(&self, budget: &Budget, e: Term) -> Form {
        let out = if self.init.is_some() { pair(e, part(budget, Op::Snd, self.out)) } else { e };
        Form { out, ..self.clone() }
    }
}

/// A chain of stages, then another one.
pub fn chain_of(stages: &[(Term, Term)], tail: Term) -> Term {
    stages.iter().rev().fold(tail, |net, &(e, b)| of("(>>> (arr (pair e x)) (>>> (first b) n))", &[('e', e), ('b', b), ('n', net)]))
}
