//! The laws, from left to right: those of tools/workbench/laws.tsv that are two patterns, and the others by hand.
use crate::cost::own_parts;
use crate::memo::{kept, Memo};
use crate::read::{filled, fits, template, Letters};
use crate::term::{int, node, truth, Op, Term};
use crate::types::MOST_MEMBERS;
use std::cell::RefCell;
use std::fmt;
use std::rc::Rc;

/// A law: `E` or `L`, and its number.
#[derive(Clone, Copy, PartialEq, Eq, PartialOrd, Ord, Hash, Debug)]
pub struct Law {
    is_of_nets: bool,
    number: u8,
}

/// The law of expressions of this number.
pub const fn e(number: u8) -> Law {
    Law { is_of_nets: false, number }
}

/// The law of networks of this number.
pub const fn l(number: u8) -> Law {
    Law { is_of_nets: true, number }
}

/// The last version of certificates.
pub const LAST_VERSION: u8 = 4;

/// The number of the last law of expressions.
pub const LAST_OF_EXPRS: u8 = 55;

/// The number of the last law of networks.
pub const LAST_OF_NETS: u8 = 65;

/// Names laws by their numbers. What they say stands in tools/workbench/laws.tsv, and in docs/LAWS.md.
macro_rules! names {
    ($of:ident: $($name:ident = $number:literal,)*) => {
        $(pub const $name: Law = $of($number);)*
    };
}

names! { e:
    INPUT_BEFORE = 1, INPUT_BEHIND = 2, THEN_NEST = 3, INTO_PARTS = 4, INTO_ON = 5, CONSTANT_BEHIND = 6,
    FST_OF_PAIR = 7, SND_OF_PAIR = 8, PAIR_OF_PARTS = 9, IF_TRUE = 10, IF_FALSE = 11, IF_SAME = 12, ON_NONE = 13,
    ON_EVENT = 14, COMPUTE = 15, ADD_SWAP = 16, ADD_NEST = 17, NTH_KNOWN = 18, SUB_AS_ADD = 19, MUL_SWAP = 20,
    MUL_NEST = 21, MUL_SUM = 22, AND_OR = 23, NOT_NOT = 24, IF_NOT = 25, EQUAL = 26, ADD_ZERO = 27, MUL_ONE = 28,
    MUL_ZERO = 29, NEG_NEG = 30, NEG_SUM = 31, NEG_PRODUCT = 32, ADD_NEG = 33, LESS_SAME = 34, AND_SAME = 35,
    OR_SAME = 36, AND_NEST = 37, OR_NEST = 38, AND_NOT = 39, OR_NOT = 40, NOT_AND = 41, NOT_OR = 42, IF_TRUTH = 44,
    IF_THEN_IF = 47, IF_ELSE_IF = 48, IF_OUT = 49, ON_OUT = 50, ON_ITSELF = 51, ON_SAME = 52, ON_THEN = 53,
}

names! { l:
    IDENTITY_FRONT = 1, IDENTITY_BACK = 2, NEST = 3, FUSE = 4, FIRST_ARR = 5, FIRST_CHAIN = 6, EXCHANGE = 7,
    FIRST_HEARD = 8, FIRST_TWICE = 9, FUSE_FRONT = 10, CELL_PASS = 11, CELL_PAIR = 12, LOOP_IN = 13, LOOP_OUT = 14,
    LOOP_TURN = 15, LOOP_INNER = 16, LOOP_UNHEARD = 17, HOLD_EVENT = 18, HOLD_NONE = 19, SOURCE = 20,
    AFTER_MAP = 21, REPEATEDLY_MAP = 22, HOLD_MAP = 23, ACCUM_MAP = 24, CONSTANT = 25, DELAY_PASS = 26,
    SWITCH_IN = 27, D_SWITCH_IN = 28, SWITCH_OUT = 29, D_SWITCH_OUT = 30, SWITCH_NEVER = 31, D_SWITCH_NEVER = 32,
    SWITCH_FIRST = 33, D_SWITCH_FIRST = 34, R_SWITCH_NEVER = 35, R_SWITCH_OUT = 36, K_SWITCH_NEVER = 37,
    K_SWITCH_RESUMED = 38, P_SWITCH_NEVER = 39, MEMBER = 40, MEMBERS_IN = 41, MEMBERS_ARR = 42, INITIAL_TWICE = 43,
    INITIAL_ARR = 44, DR_SWITCH_OUT = 45, RP_SWITCH_NEVER = 46, LOOP_FIRST = 47, HALVES = 48, CELL_LOOP = 49,
    HOLD_LOOP = 50, LOOP_ACCUM = 51, COPIED = 52, HELD_ACCUM = 53, DR_SWITCH_NEVER = 54, DELAY_PAIR = 55,
    R_SWITCH_IN = 56, DR_SWITCH_IN = 57, INITIAL_LAST = 58, INITIAL_FIRST = 59, INITIAL_BETWEEN = 60,
    INITIAL_CELL = 61, INITIAL_EVENT = 62, INTEGRAL_ONE = 63, SWITCH_SAME = 64, D_SWITCH_SAME = 65,
}

/// The table that the tools in Python read too: a law a line, its name, its sides, and words on its letters.
const TABLE: &str = include_str!("../../tools/workbench/laws.tsv");

impl fmt::Display for Law {
    fn fmt(&self, f: &mut fmt::Formatter<'_>) -> fmt::Result {
        write!(f, "{}{}", if self.is_of_nets { "L" } else { "E" }, self.number)
    }
}

impl Law {
    /// Whether it is a law of networks.
    pub fn is_of_nets(self) -> bool {
        self.is_of_nets
    }

    /// The first version of certificates that has it.
    pub fn version(self) -> u8 {
        match (self.is_of_nets, self.number) {
            (false, 1..=18) | (true, 1..=42) => 1,
            (true, 43..=46) => 2,
            (false, 19..=26) | (true, 47..=51) => 3,
            _ => LAST_VERSION,
        }
    }

    fn index(self) -> usize {
        usize::from(self.number) + if self.is_of_nets { usize::from(LAST_OF_EXPRS) } else { 0 }
    }
}

/// The laws that may be taken forward at a tree, by its form, in their order.
pub fn laws_at(term: Term) -> Rc<[Law]> {
    thread_local! {
        static LAWS: RefCell<Memo<Op, Rc<[Law]>>> = RefCell::default();
    }
    let of_form = |law: &Law| sides_of(*law).map_or(true, |(left, _)| left.op == term.op || left.op == Op::Letter);
    kept(
        &LAWS,
        term.op,
        || true,
        || if term.op.is_net() { of_nets().filter(of_form).collect() } else { of_exprs().filter(of_form).collect() },
    )
}

/// All laws of expressions.
fn of_exprs() -> impl Iterator<Item = Law> {
    (1..=LAST_OF_EXPRS).map(e)
}

/// All laws of networks.
fn of_nets() -> impl Iterator<Item = Law> {
    (1..=LAST_OF_NETS).map(l)
}

/// The patterns of a law that is two.
pub type Sides = Option<(Term, Term)>;

/// The sides of each law, by `index`.
fn read_table() -> Vec<Sides> {
    let rows: Vec<Vec<&'static str>> = TABLE.lines().map(|line| line.split('\t').collect()).collect();
    let mut sides = vec![None];
    for law in of_exprs().chain(of_nets()) {
        let row = rows.iter().find(|row| row[0] == law.to_string()).expect("a row of each law");
        // In a row that is more than two patterns there are words, or dots for more parts.
        let is_two = row.len() == 3 && !row[1..].iter().any(|side| side.contains(" where ") || side.contains(" .. "));
        sides.push(if is_two { Some((template(row[1]), template(row[2]))) } else { None });
    }
    sides
}

/// The patterns of a law.
pub fn sides_of(law: Law) -> Sides {
    thread_local! {
        static SIDES: RefCell<Vec<Sides>> = RefCell::new(read_table());
    }
    SIDES.with(|sides| sides.borrow()[law.index()])
}

/// What a law makes of a tree that is its left side, where so many frozen networks are in scope.
pub fn forward(law: Law, tree: Term, olds: usize) -> Option<Term> {
    if let Some((left, right)) = sides_of(law) {
        if left.op != tree.op && left.op != Op::Letter {
            return None;
        }
        let mut letters = Letters::new();
        return Some(tree).filter(|_| fits(left, tree, &mut letters)).map(|_| filled(right, &letters));
    }
    match (law, tree.op, &*tree.kids) {
        (INTO_PARTS, Op::Then, &[f, g]) => into_parts(f, g),
        (CONSTANT_BEHIND, Op::Then, &[_, constant]) => Some(constant).filter(|e| e.is_constant()),
        (COMPUTE, _, kids) => computed(tree.op, kids),
        (NTH_KNOWN, Op::Nth, &[list, i, default]) => known_element(list, i, default),
        (AND_OR, Op::And | Op::Or, &[a, b]) => Some(decided(tree, a, b)),
        (EQUAL, Op::Equal, &[a, b]) => Some(if a == b { truth(true) } else { node(Op::Equal, &[b, a]) }),
        (IF_OUT, op, _) if op.is_expr() => if_outside(tree),
        (SOURCE, Op::Seq, &[_, source]) => Some(source).filter(|s| matches!(s.op, Op::After | Op::Repeatedly | Op::Time)),
        (K_SWITCH_RESUMED, Op::KSwitch, &[f, _, t]) => Some(f).filter(|_| t.op == Op::Old && t.number == olds as i64),
        (P_SWITCH_NEVER, Op::PSwitch, kids) => routed_members(kids),
        (MEMBER, Op::Seq, &[members, arr]) => one_member(members, arr),
        (MEMBERS_IN, Op::Seq, &[h, members]) => each_behind(h, members),
        (MEMBERS_ARR, Op::Arr, &[list]) if list.op == Op::List => members_of(list.kids.iter().map(|e| node(Op::Arr, &[e]))),
        (RP_SWITCH_NEVER, Op::Seq, &[arr, switch]) => first_members(arr, switch),
        _ => None,
    }
}

/// The left side of a law that is two patterns, where a tree is its right side and that tells all that is on the left.
pub fn backward(law: Law, tree: Term) -> Option<Term> {
    let (left, right) = sides_of(law)?;
    let mut letters = Letters::new();
    Some(tree).filter(|_| fits(right, tree, &mut letters)).map(|_| filled(left, &letters))
}

/// `(if c (O .. a ..) (O .. b ..))` of `(O .. (if c a b) ..)`, whose first part that is an `if` this is, of those at the same input.
fn if_outside(tree: Term) -> Option<Term> {
    let k = tree.kids[..own_parts(tree)].iter().position(|kid| kid.op == Op::If)?;
    let part = tree.kids[k];
    Some(node(Op::If, &[part.kids[0], tree.with_kid(k, part.kids[1]), tree.with_kid(k, part.kids[2])]))
}

/// `(O (then f e1) .. (then f en))` of `(then f (O e1 .. en))`.
fn into_parts(f: Term, g: Term) -> Option<Term> {
    let is_operator = match g.op {
        Op::Pair | Op::Fst | Op::Snd | Op::Neg | Op::Add | Op::Sub | Op::Mul | Op::Less | Op::Equal => true,
        Op::Not | Op::And | Op::Or | Op::If | Op::Event | Op::Nth | Op::Len => true,
        Op::List => !g.kids.is_empty(),
        _ => false,
    };
    let parts: Vec<Term> = g.kids.iter().map(|e| node(Op::Then, &[f, e])).collect();
    Some(g.with_kids(&parts)).filter(|_| is_operator)
}

/// The literal of an operator's value at literals of the types that it takes.
fn computed(op: Op, parts: &[Term]) -> Option<Term> {
    let is_bool = |e: Term| matches!(e.op, Op::True | Op::False);
    Some(match (op, parts) {
        (Op::Neg, &[a]) if a.op == Op::Int => int(a.number.wrapping_neg()),
        (Op::Not, &[a]) if is_bool(a) => truth(a.op == Op::False),
        (Op::And, &[a, b]) if is_bool(a) && is_bool(b) => truth(a.op == Op::True && b.op == Op::True),
        (Op::Or, &[a, b]) if is_bool(a) && is_bool(b) => truth(a.op == Op::True || b.op == Op::True),
        (Op::Equal, &[a, b]) if is_bool(a) && is_bool(b) || a.op == b.op && a.op.is_literal() => truth(a == b),
        (_, &[a, b]) if a.op == Op::Int && b.op == Op::Int => match op {
            Op::Add => int(a.number.wrapping_add(b.number)),
            Op::Sub => int(a.number.wrapping_sub(b.number)),
            Op::Mul => int(a.number.wrapping_mul(b.number)),
            Op::Less => truth(a.number < b.number),
            _ => return None,
        },
        _ => return None,
    })
}

/// The element of a list at a known index, or the default.
fn known_element(list: Term, i: Term, default: Term) -> Option<Term> {
    let is_known = list.op == Op::List && !list.kids.is_empty() && i.op == Op::Int;
    Some(usize::try_from(i.number).ok().and_then(|i| list.kid(i)).unwrap_or(default)).filter(|_| is_known)
}

/// What the first part of an `and` or `or` decides, else the two in the other order.
fn decided(tree: Term, a: Term, b: Term) -> Term {
    match (tree.op, a.op) {
        (Op::And, Op::True) | (Op::Or, Op::False) => b,
        (_, Op::True | Op::False) => a,
        _ => tree.with_kids(&[b, a]),
    }
}

/// The `parB` of members, where there are 1 to 64.
fn members_of(members: impl Iterator<Item = Term>) -> Option<Term> {
    let all: Vec<Term> = members.collect();
    Some(&all).filter(|all| (1..=MOST_MEMBERS).contains(&all.len())).map(|all| node(Op::Par, all))
}

fn is_never(net: Term) -> bool {
    net.op == Op::Arr && net.kids[0].op == Op::NoEvent
}

/// The members of a `pSwitch` without events, each with its route.
fn routed_members(kids: &[Term]) -> Option<Term> {
    match kids {
        [route, members @ .., watch, _] if is_never(watch) => members_of(members.iter().enumerate().map(|(i, f)| {
            let numbered = node(Op::Pair, &[node(Op::Input, &[]), int(i as i64)]);
            node(Op::Seq, &[node(Op::Arr, &[node(Op::Then, &[numbered, route])]), f])
        })),
        _ => None,
    }
}

/// The one member that an `arr` behind takes.
fn one_member(members: Term, arr: Term) -> Option<Term> {
    let e = arr.kid(0).filter(|e| members.op == Op::Par && arr.op == Op::Arr && e.op == Op::Nth)?;
    Some(e.kids[1]).filter(|i| e.kids[0].op == Op::Input && i.op == Op::Int).and_then(|i| members.kid(usize::try_from(i.number).ok()?))
}

/// Each member behind h.
fn each_behind(h: Term, members: Term) -> Option<Term> {
    Some(members).filter(|m| m.op == Op::Par).and_then(|m| members_of(m.kids.iter().map(|f| node(Op::Seq, &[h, f]))))
}

/// What goes into an `rpSwitchB` without events, and its first members.
fn first_members(arr: Term, switch: Term) -> Option<Term> {
    if arr.op != Op::Arr || switch.op != Op::RpSwitch {
        return None;
    }
    match (arr.kids[0].op, &*arr.kids[0].kids, &*switch.kids) {
        (Op::Pair, &[e, none], [members @ .., _, _]) if none.op == Op::NoEvent => {
            members_of(members.iter().copied()).map(|all| node(Op::Seq, &[node(Op::Arr, &[e]), all]))
        }
        _ => None,
    }
}

#[cfg(test)]
mod tests {
    use super::*;

    #[test]
    fn examples_hold() {
        let rows = include_str!("../../tests/rows/laws").lines().filter(|row| !row.is_empty() && !row.starts_with("; "));
        let mut count = 0;
        for cells in rows.map(|row| row.split(" | ").collect::<Vec<&'static str>>()) {
            let sides = [cells[2], cells[3]].map(|side| filled(template(side), &[('T', node(Op::IntType, &[]))]));
            if let Some(&law) = laws_at(sides[0]).iter().find(|law| law.to_string() == cells[0]) {
                assert_eq!(forward(law, sides[0], 0), Some(sides[1]), "{}", law);
                count += 1;
            }
        }
        assert!(count >= 120);
    }
}
