//! What expressions and networks cost: about how many instructions a sample takes.
use crate::chain::{head, last};
use crate::memo::Memo;
use crate::term::{Op, Term};
use crate::tuning as cost;
use std::cell::RefCell;

/// What an expression costs, and how many pairs, events and lists its value is made of anew, in quarters.
#[derive(Clone, Copy, Default)]
struct Weight {
    cost: u64,
    made: u64,
}

impl Weight {
    /// What the value costs where none stood that could be used again.
    fn fresh(self) -> u64 {
        self.cost.saturating_add(self.made.saturating_mul(cost::FRESH_QUARTER))
    }
}

/// What an expression costs inside another.
pub fn expr_cost(e: Term) -> u64 {
    told(|costs| costs.weight(e).cost)
}

/// What a network costs.
pub fn net_cost(net: Term) -> u64 {
    told(|costs| costs.net(net))
}

/// What a chain costs before what comes next.
pub fn cost_before(chain: Term, next: Next) -> u64 {
    told(|costs| total(&[costs.net(chain), costs.kept(last(chain), next)]))
}

/// What a search is led by. What stands apart may keep it from steps that pay later.
#[derive(Clone, Copy, PartialEq, Eq, Debug)]
pub enum Led {
    /// All costs.
    ByAll,
    /// All but of lists that C copies.
    WithoutLists,
    /// Nor of what stages hold of one another.
    WithoutHeld,
}

/// Costs are from now on those that a search is led by.
pub fn be_led(led: Led) {
    told(|costs| {
        *costs = Costs { led, weights: std::mem::take(&mut costs.weights), nets: Memo::default() };
        0
    });
}

fn told(ask: impl FnOnce(&mut Costs) -> u64) -> u64 {
    thread_local! {
        static COSTS: RefCell<Costs> = RefCell::new(Costs { weights: Memo::default(), nets: Memo::default(), led: Led::ByAll });
    }
    COSTS.with(|costs| ask(&mut costs.borrow_mut()))
}

/// The costs that were told, each once.
struct Costs {
    weights: Memo<Term, Weight>,
    nets: Memo<Term, u64>,
    led: Led,
}

impl Costs {
    fn weight(&mut self, e: Term) -> Weight {
        if let Some(&weight) = self.weights.get(&e) {
            return weight;
        }
        let parts: Vec<Weight> = e.kids.iter().map(|kid| self.weight(kid)).collect();
        let weight = Weight { cost: cost_with(e, &parts), made: made_with(e, &parts) };
        self.weights.insert(e, weight);
        weight
    }

    /// What the expression of an `arr` costs: with what its shape takes at the root, and more where its value holds the input whole and
    /// another part takes that apart.
    fn root(&mut self, e: Term) -> u64 {
        let held = if holds_whole(e) && takes_apart(e) { cost::HELD_INPUT } else { 0 };
        match shape_cost(e) {
            Shape::Whole(cost) => cost,
            Shape::Beside(cost) => total(&[cost, self.weight(e).cost, held]),
        }
    }

    fn net(&mut self, net: Term) -> u64 {
        if let Some(&cost) = self.nets.get(&net) {
            return cost;
        }
        let cost = self.net_with(net);
        self.nets.insert(net, cost);
        cost
    }

    fn net_with(&mut self, net: Term) -> u64 {
        let kid = |k: usize| net.kids[k];
        let end = net.kids.len().saturating_sub(1);
        match net.op {
            Op::Arr => total(&[cost::ARR, self.root(kid(0))]),
            Op::Seq => total(&[self.net(kid(0)), self.net(kid(1)), self.between(kid(0), head(kid(1)))]),
            Op::First => total(&[cost::FIRST, self.net(kid(0))]),
            Op::InitialOut | Op::InitialIn => total(&[cost::CELL, self.net(kid(1))]),
            Op::Par => total(&[cost::MEMBERS, self.members(&net.kids, cost::MEMBER)]),
            Op::LoopPre => {
                let more = if has_loop(kid(1)) { cost::LOOP_ROUND_LOOP } else { 0 };
                total(&[cost::LOOP, more, self.net(kid(1)), self.kept(last(kid(1)), Next::Feedback)])
            }
            Op::Switch | Op::DSwitch if is_never(kid(0)) => total(&[cost::SWITCH, self.net(kid(0))]),
            Op::Switch | Op::DSwitch => total(&[cost::SWITCH, total(&[self.net(kid(0)), self.net(kid(1))]) / 2]),
            Op::RSwitch | Op::DrSwitch => total(&[cost::SWITCH, total(&[self.net(kid(0)), self.net(kid(1)).saturating_mul(3)]) / 4]),
            Op::KSwitch => total(&[cost::MEMBERS, self.members(&net.kids, 0) / 2]),
            Op::PSwitch => {
                let route = self.root(kid(0));
                let members = self.members(&net.kids[1..end - 1], route);
                total(&[cost::COLLECTION, total(&[members, self.net(kid(end - 1)), self.net(kid(end))]) / 2])
            }
            Op::RpSwitch => {
                let members = self.members(&net.kids[..end - 1], cost::MEMBER);
                total(&[cost::COLLECTION, members, self.net(kid(end))])
            }
            Op::Delay => cost::DELAY,
            Op::AccumBy => total(&[cost::CELL, self.root(kid(0)) / 3]),
            Op::Old => cost::FROZEN,
            _ => cost::CELL,
        }
    }

    /// What members cost, each this much more than it costs alone.
    fn members(&mut self, members: &[Term], each: u64) -> u64 {
        members.iter().fold(0, |sum, member| total(&[sum, each, self.net(member)]))
    }

    /// What it costs to hand on from a network to the stage behind it.
    fn between(&mut self, net: Term, next: Term) -> u64 {
        let stage = if net.op == Op::Seq { cost::STAGE_BEHIND_CHAIN } else { cost::STAGE };
        total(&[stage, self.kept(last(net), Next::Stage(next))])
    }

    /// What it costs that a stage's answer is kept, by the cell behind it or fed back.
    fn kept(&mut self, stage: Term, next: Next) -> u64 {
        if stage.op != Op::Arr {
            return 0;
        }
        let e = stage.kids[0];
        let made = match next {
            Next::Feedback if e.op == Op::Pair => self.weight(e.kids[1]).made,
            Next::Feedback => self.weight(e).made / 2,
            Next::Stage(next) if is_cell(next) => self.weight(e).made,
            Next::Stage(next) if next.op == Op::Arr && self.led != Led::WithoutHeld => self.held(e, next.kids[0]),
            Next::Stage(first) if first.op == Op::First && is_cell(first.kids[0]) && e.op == Op::Pair => self.weight(e.kids[0]).made,
            Next::Stage(_) | Next::Nothing => 0,
        };
        total(&[made.saturating_mul(cost::FRESH_QUARTER), self.copied(e, next)])
    }

    /// What it costs C to copy lists that one `arr` hands on to another.
    fn copied(&self, e: Term, next: Next) -> u64 {
        match next {
            Next::Stage(next) if self.led == Led::ByAll && next.op == Op::Arr && (has_lists(e) || has_lists(next)) => cost::LISTS_COPIED,
            _ => 0,
        }
    }

    /// How much of what an expression makes stands in the value of the next one, which holds it until the next sample.
    fn held(&mut self, e: Term, next: Term) -> u64 {
        match next.op {
            Op::Pair | Op::Event | Op::List => next.kids.iter().fold(0, |sum, kid| total(&[sum, self.held(e, kid)])),
            Op::If => total(&[self.held(e, next.kids[1]), self.held(e, next.kids[2])]) / 2,
            _ => part_by(e, next).map_or(0, |part| self.weight(part).made),
        }
    }
}

/// The part of a made pair that a path leads to.
fn part_by(e: Term, path: Term) -> Option<Term> {
    match path.op {
        Op::Input => Some(e),
        Op::Fst | Op::Snd => part_by(e, path.kids[0]).filter(|whole| whole.op == Op::Pair)?.kid(usize::from(path.op == Op::Snd)),
        _ => None,
    }
}

/// Whether the second part of what the network outputs is no event, so that a switch round it never switches: behind it nothing runs.
fn is_never(net: Term) -> bool {
    let is_none = |e: Term| e.op == Op::Pair && e.kids[1].op == Op::NoEvent;
    match last(net).op {
        Op::Arr => is_none(last(net).kids[0]),
        Op::LoopPre => {
            let end = last(last(net).kids[1]);
            end.op == Op::Arr && end.kids[0].op == Op::Pair && is_none(end.kids[0].kids[0])
        }
        _ => false,
    }
}

/// Whether a loop runs in the network.
fn has_loop(net: Term) -> bool {
    net.op == Op::LoopPre || net.op.is_net() && net.kids.iter().any(|kid| has_loop(kid))
}

/// Whether the expression or the network has to do with lists.
pub fn has_lists(tree: Term) -> bool {
    matches!(tree.op, Op::List | Op::Nth | Op::Len) || tree.kids.iter().any(|kid| has_lists(kid))
}

/// What stands behind a chain.
#[derive(Clone, Copy, PartialEq, Eq, Hash)]
pub enum Next {
    /// Nothing that is known.
    Nothing,
    /// A stage.
    Stage(Term),
    /// The end of a loop, whose body the chain is.
    Feedback,
}

/// Whether the network keeps what it gets, as `iPre` and `delay` do.
pub fn is_cell(net: Term) -> bool {
    matches!(net.op, Op::IPre | Op::Delay)
}

/// Whether the expression is `x` under any number of `fst` and `snd`.
pub fn is_path(e: Term) -> bool {
    match e.op {
        Op::Input => true,
        Op::Fst | Op::Snd => is_path(e.kids[0]),
        _ => false,
    }
}

/// Whether the expression is a path, a literal or a parameter.
pub fn is_simple(e: Term) -> bool {
    e.op.is_literal() || e.op == Op::Param || is_path(e)
}

/// How many of the expression's parts, the first ones, have its own input.
pub fn own_parts(e: Term) -> usize {
    match e.op {
        Op::Then => 1,
        Op::On => 2,
        _ => e.kids.len(),
    }
}

/// The sum of costs, at most the largest number.
fn total(costs: &[u64]) -> u64 {
    costs.iter().fold(0, |sum, &cost| sum.saturating_add(cost))
}

enum Shape {
    /// All that the expression costs.
    Whole(u64),
    /// What its root costs.
    Beside(u64),
}

/// What the root of an `arr`'s expression costs: a closure of its own computes some.
fn shape_cost(e: Term) -> Shape {
    let kid = |k: usize| e.kids[k].op;
    match e.op {
        Op::Add if kid(1) == Op::Int && (kid(0) == Op::Input || is_multiple(e.kids[0])) => Shape::Whole(cost::SHAPED_ROOT),
        Op::Mul if is_multiple(e) => Shape::Whole(cost::SHAPED_ROOT),
        Op::Less if kid(0) == Op::Input && kid(1) == Op::Int => Shape::Whole(cost::COMPARISON),
        Op::Fst | Op::Snd if kid(0) == Op::Input => Shape::Beside(cost::SHAPED_ROOT),
        Op::Input => Shape::Beside(cost::SHAPED_ROOT),
        op if op.is_literal() => Shape::Beside(cost::SHAPED_ROOT),
        Op::Add | Op::Sub | Op::Mul => Shape::Beside(cost::ARITHMETIC_ROOT),
        _ => Shape::Beside(cost::ROOT),
    }
}

/// Whether the expression is `(mul x n)`.
fn is_multiple(e: Term) -> bool {
    e.op == Op::Mul && e.kids[0].op == Op::Input && e.kids[1].op == Op::Int
}

/// Whether a pair, an event, a list or a branch that the value is made of is the input itself.
fn holds_whole(e: Term) -> bool {
    let is_made = matches!(e.op, Op::Pair | Op::Event | Op::List | Op::If);
    is_made && e.kids.iter().any(|kid| kid.op == Op::Input || holds_whole(kid))
}

/// Whether a part of the expression is `(fst x)` or `(snd x)` of its own input.
fn takes_apart(e: Term) -> bool {
    let is_taken = matches!(e.op, Op::Fst | Op::Snd) && e.kids[0].op == Op::Input;
    is_taken || e.kids[..own_parts(e)].iter().any(|kid| takes_apart(kid))
}

/// What is made of anew by an expression whose parts make so much.
fn made_with(e: Term, parts: &[Weight]) -> u64 {
    let made = |k: usize| parts[k].made;
    match e.op {
        Op::Pair | Op::Event | Op::List => parts.iter().fold(cost::QUARTERS, |sum, part| sum.saturating_add(part.made)),
        Op::If => total(&[made(1), made(2)]) / 2,
        Op::On => total(&[made(1), made(1), made(2)]) / 3,
        Op::Then => made(1),
        _ => 0,
    }
}

/// What an expression costs whose parts weigh so much.
fn cost_with(e: Term, parts: &[Weight]) -> u64 {
    let kid = |k: usize| e.kids[k];
    let cost_of = |k: usize| parts[k].cost;
    let operand = |k: usize| operand(kid(k), parts[k]);
    let looked = |k: usize, path: u64, other: u64| looked(kid(k), parts[k], path, other);
    match e.op {
        Op::Fst | Op::Snd if is_path(kid(0)) => total(&[cost_of(0), if e.height > 3 { cost::LONG_PATH_STEP } else { cost::PATH_STEP }]),
        Op::Fst | Op::Snd => total(&[cost::PART_OF_MADE, parts[0].fresh()]),
        Op::Neg => total(&[cost::ARITHMETIC, operand(0)]),
        Op::Add | Op::Sub | Op::Mul | Op::Less => total(&[cost::ARITHMETIC, operand(0), operand(1)]),
        Op::Equal => total(&[cost::EQUAL, operand(0), operand(1)]),
        Op::Pair => total(&[cost::MADE, cost_of(0), cost_of(1), made_in_pair(kid(0)), made_in_pair(kid(1))]),
        Op::Then => total(&[cost_of(1), looked(0, cost::THEN_OF_PATH, cost::THEN)]),
        Op::Not => total(&[cost::LOGIC, cost_of(0)]),
        Op::And | Op::Or => total(&[cost::LOGIC, cost_of(0), cost_of(1)]),
        Op::If => total(&[cost::CHOICE, cost_of(0), total(&[cost_of(1), cost_of(2)]) / 2]),
        Op::Event => total(&[cost::MADE, cost_of(0)]),
        Op::On => total(&[cost::ON, looked(0, 0, cost::ON_MADE), total(&[cost_of(1), cost_of(1), cost::ON_EVENTS, cost_of(2)]) / 3]),
        Op::List => parts.iter().fold(cost::LIST, |sum, part| total(&[sum, part.cost, cost::ELEMENT])),
        Op::Nth => total(&[cost::NTH, looked(0, 0, cost::MADE_LIST), operand(1), cost_of(2)]),
        Op::Len => total(&[cost::LEN, looked(0, 0, cost::MADE_LIST)]),
        _ => cost::LEAF,
    }
}

/// What a part costs that is looked at: one way where it is a path, else another and its value.
fn looked(part: Term, weight: Weight, path: u64, other: u64) -> u64 {
    if is_path(part) {
        path
    } else {
        total(&[other, weight.fresh()])
    }
}

fn operand(part: Term, weight: Weight) -> u64 {
    match part.op {
        Op::Neg | Op::Add | Op::Sub | Op::Mul | Op::Nth | Op::Len => total(&[cost::COMPUTED_OPERAND, weight.cost]),
        _ if is_simple(part) => cost::SIMPLE_OPERAND + weight.cost.saturating_sub(cost::LEAF + 2 * cost::PATH_STEP),
        _ => total(&[cost::MADE_OPERAND, weight.cost]),
    }
}

/// What is added for a part of a pair that is itself made.
fn made_in_pair(part: Term) -> u64 {
    match part.op {
        Op::Pair | Op::Event => cost::MADE_IN_PAIR,
        _ => 0,
    }
}
