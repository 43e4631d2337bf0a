//! A network of one loop and one chain as a graph: wires, each a box at its input; and the steps that reduce the graph.
//!
//! A wire is written as a parameter with a high number, so that expressions over wires are normal expressions. Equal contents have equal
//! numbers, in any network; who reads a wire has a greater number than it. Each reduction writes down a network that a law changes as needed,
//! and of which what stands there is made: the steps that make it, undone, lead there.
use crate::draft::{joined, Budget, Draft};
use crate::exprs::{normal, pair, seen_as, then};
use crate::laws;
use crate::read::{filled, of, template};
use crate::single::{chain_of, flat, go_back, is_closed, part, single, turn, Form};
use crate::sums::compared;
use crate::term::{node, put, Op, Term};
use crate::tuning::MOST_REDUCTIONS;
use std::ops::Range;

/// The number of the input's wire; those of the states come behind it.
pub const WIRE: i64 = 1_000_000;
/// The numbers of boxes' wires begin here.
const BOXED: i64 = 1 << 32;

/// A state of the loop: a part of what it starts with that is no pair.
pub struct State {
    /// Where it stands in the whole state.
    pub place: Term,
    /// What it is at first.
    pub start: Term,
    /// What it is next.
    pub next: Term,
}

/// A network as a graph.
pub struct Graph {
    /// The network.
    pub form: Form,
    /// The wires of the input and of the states, as they stand before the first stage.
    base: Term,
    /// The wire of each stage.
    pub wires: Vec<Term>,
    /// What the box of each stage gets.
    pub inputs: Vec<Term>,
    /// What the last `arr` outputs.
    pub out: Term,
    /// What of that isn't fed back.
    pub shown: Term,
    /// The parts of the state.
    pub states: Vec<State>,
    /// What is needed of what is shown.
    pub live: Vec<Term>,
    /// What is needed of that and of the state.
    read: Vec<Term>,
}

/// The wire of this number.
pub fn wire(number: i64) -> Term {
    put(Op::Param, number, None, &[])
}

/// Whether an expression is a wire.
pub fn is_wire(e: Term) -> bool {
    e.op == Op::Param && e.number >= WIRE
}

/// The normal form of g behind f.
pub fn composed(budget: &Budget, f: Term, g: Term) -> Term {
    normal(budget, then(f, g)).to
}

/// The wires that a content reads, in the order of their first place.
pub fn reads(e: Term, found: &mut Vec<Term>) {
    if is_wire(e) {
        if !found.contains(&e) {
            found.push(e);
        }
        return;
    }
    e.kids.iter().for_each(|kid| reads(kid, found));
}

/// The expression over wires with paths in place of the wires, which are found in pairs of them; nothing where another is left.
fn written(budget: &Budget, e: Term, env: Term) -> Option<Term> {
    let paths: Vec<(Term, Term)> = states_of(env).into_iter().map(|(place, wire)| (wire, place)).collect();
    seen_as(budget, e, &paths)
}

impl Graph {
    /// The wires that are there before a stage.
    fn env(&self, stage: usize) -> Term {
        self.wires[..stage].iter().fold(self.base, |env, own| pair(own, env))
    }

    /// The chain of some stages, where these wires are there before them, and what comes out.
    fn chain(&self, budget: &Budget, env: Term, stages: Range<usize>, out: Term) -> Option<Term> {
        let (mut env, mut all) = (env, vec![]);
        for i in stages {
            all.push((written(budget, self.inputs[i], env)?, self.form.stages[i].1));
            env = pair(self.wires[i], env);
        }
        Some(chain_of(&all, node(Op::Arr, &[written(budget, out, env)?])))
    }

    /// The graph of such a network.
    pub fn of(budget: &Budget, form: Form) -> Option<Graph> {
        let mut env = wire(WIRE);
        let found = form.init.map_or(vec![], states_of);
        if let Some(init) = form.init {
            env = pair(env, with_states(init, &mut (1..=found.len() as i64).map(|k| wire(WIRE + k))));
        }
        let base = env;
        let (mut wires, mut inputs) = (vec![], vec![]);
        for &(e, b) in &form.stages {
            let input = composed(budget, env, e);
            let own = wire(BOXED + node(Op::Scope, &[b, input]).id());
            wires.push(own);
            inputs.push(input);
            env = pair(own, env);
        }
        let out = composed(budget, env, form.out);
        let (mut shown, mut states) = (out, vec![]);
        if form.init.is_some() {
            shown = part(budget, Op::Fst, out);
            let next = part(budget, Op::Snd, out);
            states = found.into_iter().map(|(place, start)| State { place, start, next: composed(budget, next, place) }).collect();
        }
        let mut graph = Graph { form, base, wires, inputs, out, shown, states, live: vec![], read: vec![] };
        graph.live = graph.needed(&[shown])?;
        let roots: Vec<Term> = std::iter::once(shown).chain(graph.states.iter().map(|state| state.next)).collect();
        graph.read = graph.needed(&roots)?;
        Some(graph)
    }

    /// What the roots need, in breadth.
    fn needed(&self, roots: &[Term]) -> Option<Vec<Term>> {
        let mut found = vec![];
        roots.iter().for_each(|root| reads(root, &mut found));
        let mut k = 0;
        while k < found.len() {
            let number = found[k].number;
            if number >= BOXED {
                let i = self.wires.iter().position(|&other| other == found[k])?;
                reads(self.inputs[i], &mut found);
            } else if number > WIRE {
                reads(self.states.get((number - WIRE - 1) as usize)?.next, &mut found);
            }
            k += 1;
        }
        Some(found)
    }

    /// What the states are at first, after one sample and after two, whatever boxes output.
    fn signs(&self, budget: &Budget) -> Vec<Term> {
        let mut now: Vec<Term> = self.states.iter().map(|state| state.start).collect();
        let mut signs = now.clone();
        for sample in 0..2 {
            let input = wire(WIRE - 1 - sample);
            now = self.states.iter().map(|state| normal(budget, self.with_wires(state.next, input, &now)).to).collect();
            signs = signs.iter().zip(&now).map(|(sign, e)| pair(sign, e)).collect();
        }
        signs
    }

    /// Whether a number of the state is next computed by less where it is kept negated, or begins as less than 0 else.
    fn is_less_negated(&self, budget: &Budget, k: usize) -> bool {
        let State { start, next, .. } = self.states[k];
        let wires: Vec<Term> = (1..=self.states.len() as i64).map(|number| wire(WIRE + number)).collect();
        let negated = |e: Term| node(Op::Neg, &[e]);
        let mut others = wires.clone();
        others[k] = negated(wires[k]);
        let kept = |states: &[Term]| self.with_wires(next, wire(WIRE), states);
        let (plain, other) = (normal(budget, kept(&wires)).to.size, normal(budget, negated(kept(&others))).to.size);
        start.op == Op::Int && (other < plain || other == plain && start.number < 0)
    }

    /// An expression with these in place of the wires of the input and of the states.
    fn with_wires(&self, e: Term, input: Term, states: &[Term]) -> Term {
        match e.op {
            Op::Param if e.number >= BOXED => wire(BOXED),
            Op::Param if e.number > WIRE => states[(e.number - WIRE - 1) as usize],
            Op::Param if e.number == WIRE => input,
            _ => e.with_kids(&e.kids.iter().map(|kid| self.with_wires(kid, input, states)).collect::<Vec<Term>>()),
        }
    }
}

/// Where each part of a constant that is no pair stands in it, and what it is, from left to right.
pub fn states_of(start: Term) -> Vec<(Term, Term)> {
    let mut todo = vec![(template("x"), start)];
    let mut all = vec![];
    while let Some((place, start)) = todo.pop() {
        if start.op == Op::Pair {
            todo.push((node(Op::Snd, &[place]), start.kids[1]));
            todo.push((node(Op::Fst, &[place]), start.kids[0]));
        } else {
            all.push((place, start));
        }
    }
    all
}

/// The pairs of a constant, with these in place of what is no pair.
pub fn with_states(start: Term, parts: &mut impl Iterator<Item = Term>) -> Term {
    if start.op == Op::Pair {
        let first = with_states(start.kids[0], parts);
        return pair(first, with_states(start.kids[1], parts));
    }
    parts.next().unwrap_or(start)
}

/// A change of the network at a path, of which this is the graph, at a stage or a state of this number.
type Reduction = fn(&mut Draft, &[u32], &Graph, usize) -> Option<()>;

/// The reductions, in their order.
const REDUCTIONS: [Reduction; 6] = [dead_stage, twins, narrow_delay, restate, exchange, dead_state];

/// Reduces the network at a path, which is one loop round one chain: dead stages, constant or doubled parts of delays and of the state, and
/// dead states are dropped, and neighbours are put in order.
pub fn reduce(d: &mut Draft, path: &[u32]) -> Option<()> {
    for _ in 0..MOST_REDUCTIONS {
        let graph = Graph::of(&d.budget, Form::read(d.at(path)?)?)?;
        let places = 0..graph.wires.len().max(graph.states.len());
        let mut tries = REDUCTIONS.iter().flat_map(|reduction| places.clone().map(move |i| (reduction, i)));
        if !tries.any(|(reduction, i)| attempted(d, |d| reduction(d, path, &graph, i)).is_some()) {
            return Some(());
        }
    }
    Some(())
}

/// Tries a reduction; where it fails the draft is as before.
pub fn attempted(d: &mut Draft, reduction: impl FnOnce(&mut Draft) -> Option<()>) -> Option<()> {
    let mark = d.mark();
    let done = reduction(d);
    if done.is_none() {
        d.back_to(&mark);
    }
    done
}

/// Drops a stage that nobody reads.
fn dead_stage(d: &mut Draft, path: &[u32], graph: &Graph, i: usize) -> Option<()> {
    if graph.read.contains(graph.wires.get(i)?) {
        return None;
    }
    let rest = graph.chain(&d.budget, graph.env(i), i + 1..graph.wires.len(), graph.out)?;
    go_back(d, path, graph.form.upto(i + 1, of("(>>> (arr (snd x)) n)", &[('n', rest)])))?;
    drop_box(d, &graph.form.way_to(path, i))?;
    single(d, path)
}

/// At `(>>> (arr z) (>>> (first b) (>>> (arr (snd x)) t)))`: without b.
fn drop_box(d: &mut Draft, way: &[u32]) -> Option<()> {
    turn(d, &joined(way, &[1, 1, 0, 0]), template("(then LEFT(then unit unit) (snd x))"))?;
    d.back(laws::FUSE_FRONT, &joined(way, &[1, 1]))?;
    d.back(laws::FIRST_ARR, &joined(way, &[1, 1, 0]))?;
    d.back(laws::NEST, &joined(way, &[1]))?;
    d.back(laws::FIRST_CHAIN, &joined(way, &[1, 0]))?;
    d.forward(laws::CONSTANT, &joined(way, &[1, 0, 0]))?;
    d.forward(laws::FIRST_ARR, &joined(way, &[1, 0]))?;
    flat(d, way)
}

/// What two expressions have in common: letters where they differ, the differences in order.
fn common(a: Term, b: Term, parts: &mut Vec<(Term, Term)>) -> Term {
    if a == b && is_closed(a) {
        return a;
    }
    if a.is_like(b) && matches!(a.op, Op::Pair | Op::Event | Op::List) {
        let kids: Vec<Term> = a.kids.iter().zip(b.kids.iter()).map(|(a, b)| common(a, b, parts)).collect();
        return a.with_kids(&kids);
    }
    let k = parts.iter().position(|&other| other == (a, b)).unwrap_or_else(|| {
        parts.push((a, b));
        parts.len() - 1
    });
    put(Op::Letter, k as i64, None, &[])
}

/// Where each of so many things stands in pairs nested to the right that hold them from here on.
pub fn places(count: usize, from: Term) -> Vec<Term> {
    let mut from = from;
    let mut all = vec![];
    for k in 0..count {
        all.push(if k + 1 == count { from } else { node(Op::Fst, &[from]) });
        from = node(Op::Snd, &[from]);
    }
    all
}

/// These in pairs nested to the right.
pub fn nested(parts: &[Term]) -> Option<Term> {
    let (last, others) = parts.split_last()?;
    Some(others.iter().rev().fold(*last, |all, part| pair(part, all)))
}

/// A delay of parts that never change, or are twice there: only the others are delayed.
fn narrow_delay(d: &mut Draft, path: &[u32], graph: &Graph, i: usize) -> Option<()> {
    let &(e, b) = graph.form.stages.get(i).filter(|stage| stage.1.op == Op::Delay)?;
    let (mut parts, c) = (vec![], b.kids[0]);
    let f = common(e, c, &mut parts);
    let names: Vec<char> = (0..parts.len() as u32).filter_map(char::from_u32).collect();
    let letters: Vec<(char, Term)> = names.into_iter().zip(places(parts.len(), template("x"))).collect();
    let mut f = filled(f, &letters);
    let (inputs, starts): (Vec<Term>, Vec<Term>) = parts.iter().copied().unzip();
    let (e, c) = (nested(&inputs).unwrap_or(e), nested(&starts).unwrap_or(c));
    if parts.is_empty() {
        f = then(template("unit"), f);
    }
    if normal(&d.budget, f).to.op == Op::Input {
        return None;
    }
    let late = b.with_kids(&[then(c, f)]);
    let tail = "(>>> (arr (pair e x)) (>>> (first (>>> (arr f) d)) n))";
    go_back(d, path, graph.form.upto(i, of(tail, &[('e', e), ('f', f), ('d', late), ('n', graph.form.rest(i + 1))])))?;
    let way = joined(&graph.form.way_to(path, i), &[1, 0, 0]);
    d.back(laws::DELAY_PASS, &way)?;
    if parts.is_empty() {
        d.forward(laws::CONSTANT, &way)?;
    }
    single(d, path)
}

/// Exchanges a stage with the next one, where they are out of order: what only dead states need comes last, else by numbers.
fn exchange(d: &mut Draft, path: &[u32], graph: &Graph, i: usize) -> Option<()> {
    let key = |wire: &Term| (!graph.live.contains(wire), wire.number);
    if key(graph.wires.get(i)?) <= key(graph.wires.get(i + 1)?) {
        return None;
    }
    let form = &graph.form;
    let ((a, f), (b, h)) = (form.stages[i], form.stages[i + 1]);
    let b = composed(&d.budget, template("(pair unit x)"), b);
    let tail = of(
        "(>>> (arr (pair a (pair b x))) (>>> (>>> (first f) (second (first h))) (>>> (arr (pair (fst (snd x)) (pair (fst x) (snd (snd x))))) n)))",
        &[('a', a), ('b', b), ('f', f), ('h', h), ('n', form.rest(i + 2))],
    );
    go_back(d, path, form.upto(i, tail))?;
    d.forward(laws::HALVES, &joined(&form.way_to(path, i), &[1, 0]))?;
    single(d, path)
}

/// Puts the state in order: constants and doubles out, the dead ones behind the others, what is less when it is negated that. These come as they are at first and after one sample,
/// and where that is the same as they are asked for.
fn restate(d: &mut Draft, path: &[u32], graph: &Graph, i: usize) -> Option<()> {
    let init = graph.form.init.filter(|_| i == 0)?;
    let is_constant = |state: &State| state.start == state.next && is_closed(state.next) && state.next.op != Op::Unit;
    let states = &graph.states;
    let twin = |i: usize| (0..i).find(|&j| states[j].start == states[i].start && states[j].next == states[i].next);
    let stays = |k: &usize| !is_constant(&states[*k]) && twin(*k).is_none();
    let mut asked: Vec<usize> =
        graph.live.iter().map(|wire| wire.number).filter(|n| (WIRE + 1..BOXED).contains(n)).map(|n| (n - WIRE - 1) as usize).collect();
    let signs = graph.signs(&d.budget);
    asked.sort_by(|&i, &j| compared(signs[i], signs[j]));
    let dead: Vec<usize> = (0..states.len()).filter(|k| !asked.contains(k)).filter(|k| stays(k)).collect();
    let order: Vec<usize> = asked.into_iter().filter(|k| stays(k)).collect();
    let negated: Vec<bool> = (0..states.len()).map(|k| graph.is_less_negated(&d.budget, k)).collect();
    let turned = |k: usize, e: Term| if negated[k] { node(Op::Neg, &[e]) } else { e };
    let from = |ks: &[usize]| nested(&ks.iter().map(|&k| turned(k, states[k].place)).collect::<Vec<Term>>());
    let perm = match (from(&order), from(&dead)) {
        (Some(a), Some(b)) => pair(a, b),
        (Some(all), None) | (None, Some(all)) => all,
        (None, None) => template("unit"),
    };
    if normal(&d.budget, perm).to.op == Op::Input || perm.op == Op::Unit && init.op == Op::Unit {
        return None;
    }
    let two = !order.is_empty() && !dead.is_empty();
    let mut now = places(order.len(), template(if two { "(fst x)" } else { "x" }));
    now.extend(places(dead.len(), template(if two { "(snd x)" } else { "x" })));
    let all: Vec<usize> = order.iter().chain(&dead).copied().collect();
    let place = |k: usize| {
        if is_constant(&states[k]) {
            return Some(states[k].start);
        }
        let own = twin(k).unwrap_or(k);
        all.iter().position(|&other| other == own).map(|i| turned(own, now[i]))
    };
    let parts: Option<Vec<Term>> = (0..states.len()).map(place).collect();
    let back = with_states(init, &mut parts?.into_iter());
    let out = composed(&d.budget, graph.form.out, of("RIGHT(g)", &[('g', perm)]));
    let f = chain_of(&graph.form.stages, node(Op::Arr, &[out]));
    let c = composed(&d.budget, init, perm);
    go_back(d, path, of("(loopPre (then c i) (>>> f (arr RIGHT(i))))", &[('c', c), ('i', back), ('f', f)]))?;
    d.back(laws::LOOP_TURN, path)?;
    single(d, path)
}

/// Makes one of two boxes beside one another that are the same and get the same.
fn twins(d: &mut Draft, path: &[u32], graph: &Graph, i: usize) -> Option<()> {
    if graph.wires.get(i)? != graph.wires.get(i + 1)? {
        return None;
    }
    let ((e, b), rest) = (graph.form.stages[i], graph.form.rest(i + 2));
    let both = "(>>> (arr (pair e x)) (>>> (first (&&& b b)) (>>> (arr (pair (snd (fst x)) (pair (fst (fst x)) (snd x)))) n)))";
    go_back(d, path, graph.form.upto(i, of(both, &[('e', e), ('b', b), ('n', rest)])))?;
    d.backward(laws::COPIED, &joined(&graph.form.way_to(path, i), &[1, 0, 0]), of("(>>> b (arr (pair x x)))", &[('b', b)]))?;
    single(d, path)
}

/// Drops the part of the state that nothing shown needs, with its stages.
fn dead_state(d: &mut Draft, path: &[u32], graph: &Graph, i: usize) -> Option<()> {
    let form = &graph.form;
    let init = form.init.filter(|_| i == 0)?;
    let lives: Vec<bool> = (0..graph.states.len()).map(|k| graph.live.contains(&wire(WIRE + 1 + k as i64))).collect();
    let all_dead = !lives.contains(&true);
    let n = graph.wires.iter().filter(|wire| graph.live.contains(wire)).count();
    if !lives.contains(&false) || !graph.wires[..n].iter().all(|wire| graph.live.contains(wire)) || !all_dead && init.op != Op::Pair {
        return None;
    }
    // The live and the dead part of the state, of what it starts with, and of what it is next.
    let halves = |whole: Term, next: Term| {
        if all_dead {
            (template("unit"), next)
        } else {
            (part(&d.budget, Op::Fst, whole), part(&d.budget, Op::Snd, whole))
        }
    };
    let (base, next) = (graph.base.kids[1], part(&d.budget, Op::Snd, graph.out));
    let ((live, dead), (_, start), (live_next, dead_next)) = (halves(base, base), halves(init, init), halves(next, next));
    let small = Form { init: if all_dead { None } else { init.kid(0) }, stages: vec![], out: template("x") };
    let env = if all_dead { graph.base.kids[0] } else { pair(graph.base.kids[0], live) };
    let shown = if all_dead { graph.shown } else { pair(graph.shown, live_next) };
    let within = graph.wires[..n].iter().fold(env, |env, own| pair(own, env));
    let out = written(&d.budget, shown, within)?;
    if form.stages.is_empty() && dead_next == dead {
        go_back(d, path, small.upto(0, of("(loopPre c (first (arr e)))", &[('c', start), ('e', out)])))?;
        d.forward(laws::LOOP_UNHEARD, &small.way_to(path, 0))?;
        return single(d, path);
    }
    let inner = graph.chain(&d.budget, pair(within, dead), n..graph.wires.len(), pair(template("unit"), dead_next))?;
    let kept = graph.chain(&d.budget, env, 0..n, template("unit"))?;
    let small = Form { stages: Form::read(kept)?.stages, ..small };
    let tail =
        of("(>>> (arr (pair x o)) (>>> (first (loopPre c d)) (>>> (arr (snd x)) (arr x))))", &[('o', out), ('c', start), ('d', inner)]);
    go_back(d, path, small.upto(n, tail))?;
    drop_box(d, &small.way_to(path, n))?;
    single(d, path)
}
