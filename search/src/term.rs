//! Terms: types, expressions and networks, each made once.
//!
//! A term is a form, a number (of a literal, a parameter, a delay ..), a type (of `none` and `list`) and its children, numbered as
//! positions number them. Equal terms are one node, so that comparing and copying cost nothing, and no part is ever stored twice. Nodes
//! stay until the program ends.
use std::cell::RefCell;
use std::hash::{Hash, Hasher};

/// A term: a reference to its only node.
pub type Term = &'static Node;

/// What follows a form's word in a text.
#[derive(Clone, Copy, PartialEq, Eq, Debug)]
pub enum Follows {
    /// So many children.
    Children(usize),
    /// A number, then so many children.
    Number(usize),
    /// A type, then no child.
    Type,
    /// A type, then elements.
    Elements,
    /// Members.
    Members,
    /// So many children, members in `(col ..)`, and so many more children.
    Column(usize, usize),
}

use Follows::{Children, Column, Elements, Members, Number, Type};

/// Makes the enumeration of all forms, and the table of them.
macro_rules! forms {
    ($($op:ident: $word:literal $follows:expr, $typing:literal;)*) => {
        /// The form of a term.
        #[derive(Clone, Copy, PartialEq, Eq, PartialOrd, Ord, Hash, Debug)]
        pub enum Op {
            $($op),*
        }

        /// The forms in their order: the word of each, what follows it, and how it is typed, as `types.rs` reads it.
        pub const FORMS: &[(&str, Op, Follows, &str)] = &[$(($word, Op::$op, $follows, $typing)),*];
    };
}

forms! {
    // Expressions, in the order in which sums and products sort them; literals come last there.
    Input: "x" Children(0), "i | i";
    Param: "p" Number(0), "";
    Pair: "pair" Children(2), "i | i -> a | i -> b | (Pair a b)";
    Fst: "fst" Children(1), "i | i -> (Pair a b) | a";
    Snd: "snd" Children(1), "i | i -> (Pair a b) | b";
    Then: "then" Children(2), "i | i -> a | a -> b | b";
    Neg: "neg" Children(1), "i | i -> Int | Int";
    Add: "add" Children(2), "i | i -> Int | i -> Int | Int";
    Sub: "sub" Children(2), "i | i -> Int | i -> Int | Int";
    Mul: "mul" Children(2), "i | i -> Int | i -> Int | Int";
    Less: "less" Children(2), "i | i -> Int | i -> Int | Bool";
    Equal: "equal" Children(2), "i | i -> a | i -> a | Bool";
    Not: "not" Children(1), "i | i -> Bool | Bool";
    And: "and" Children(2), "i | i -> Bool | i -> Bool | Bool";
    Or: "or" Children(2), "i | i -> Bool | i -> Bool | Bool";
    If: "if" Children(3), "i | i -> Bool | i -> a | i -> a | a";
    NoEvent: "none" Type, "i | (Event T)";
    Event: "event" Children(1), "i | i -> a | (Event a)";
    On: "on" Children(3), "i | i -> (Event a) | i -> b | (Pair i a) -> b | b";
    List: "list" Elements, "i | *i -> T | (List T)";
    Nth: "nth" Children(3), "i | i -> (List a) | i -> Int | i -> a | a";
    Len: "len" Children(1), "i | i -> (List a) | Int";
    Unit: "unit" Children(0), "i | Unit";
    False: "false" Children(0), "i | Bool";
    True: "true" Children(0), "i | Bool";
    Int: "" Children(0), "i | Int";
    // Networks.
    Arr: "arr" Children(1), "i | i -> a | a";
    Seq: ">>>" Children(2), "i | i => a | a => b | b";
    First: "first" Children(1), "(Pair a b) | a => c | (Pair c b)";
    Par: "parB" Members, "i | *i => a | (List a)";
    LoopPre: "loopPre" Children(2), "i | Unit -> s | (Pair i s) => (Pair a s) | a";
    InitialOut: "-->" Children(2), "i | Unit -> a | i => a | a";
    InitialIn: ">--" Children(2), "i | Unit -> i | i => a | a";
    IPre: "iPre" Children(1), "i | Unit -> i | i";
    Delay: "delay" Number(1), "i | Unit -> i | i";
    Hold: "hold" Children(1), "(Event a) | Unit -> a | a";
    AccumBy: "accumBy" Children(2), "(Event a) | (Pair s a) -> s | Unit -> s | (Event s)";
    After: "after" Number(1), "i | Unit -> a | (Event a)";
    Repeatedly: "repeatedly" Number(1), "i | Unit -> a | (Event a)";
    Time: "time" Children(0), "i | Int";
    Integral: "integral" Children(0), "Int | Int";
    Switch: "switch" Children(2), "i | i => (Pair a (Event e)) | i => a + e | a";
    DSwitch: "dSwitch" Children(2), "i | i => (Pair a (Event e)) | i => a + e | a";
    RSwitch: "rSwitch" Children(2), "(Pair i (Event e)) | i => a | i => a + e | a";
    DrSwitch: "drSwitch" Children(2), "(Pair i (Event e)) | i => a | i => a + e | a";
    KSwitch: "kSwitch" Children(3), "i | i => a | (Pair i a) => (Event e) | i => a + e + (Pair i a) | a";
    PSwitch: "pSwitch" Column(1, 2),
        "i | (Pair i Int) -> r | *r => a | (Pair i (List a)) => (Event e) | i => (List a) + e + (Pair r a) | (List a)";
    RpSwitch: "rpSwitchB" Column(0, 2), "(Pair i (Event e)) | *i => a | e -> (Pair c (List f)) | i => a + f | (List a)";
    Old: "old" Number(0), "";
    // Types.
    UnitType: "Unit" Children(0), "";
    BoolType: "Bool" Children(0), "";
    IntType: "Int" Children(0), "";
    PairType: "Pair" Children(2), "";
    EventType: "Event" Children(1), "";
    ListType: "List" Children(1), "";
    // A letter of a pattern.
    Letter: "" Children(0), "";
    // What is in scope: a list of types.
    Scope: "" Children(0), "";
}

impl Op {
    /// Whether it is a form of networks.
    pub fn is_net(self) -> bool {
        Op::Arr <= self && self <= Op::Old
    }

    /// Whether it is a form of expressions.
    pub fn is_expr(self) -> bool {
        self <= Op::Int
    }

    /// Whether it is a form of types, or a letter.
    pub fn is_type(self) -> bool {
        self >= Op::UnitType
    }

    /// Whether it is a form of version 2.
    pub fn is_new(self) -> bool {
        matches!(self, Op::InitialOut | Op::InitialIn | Op::DrSwitch | Op::RpSwitch)
    }

    /// Whether it is a literal.
    pub fn is_literal(self) -> bool {
        matches!(self, Op::Unit | Op::False | Op::True | Op::Int)
    }
}

/// A node of a term.
#[derive(Debug)]
pub struct Node {
    /// The form.
    pub op: Op,
    /// The number that is part of the form, else 0.
    pub number: i64,
    /// The type that is part of the form, of `none` and `list`.
    pub ty: Option<Term>,
    /// The children.
    pub kids: Box<[Term]>,
    /// How many nodes the term has, written out.
    pub size: u64,
    /// How many nodes stand in one another.
    pub height: u32,
    /// How many networks stand in one another, where frozen ones aren't counted.
    pub net_height: u32,
    /// How many stages the network has as a chain, however that is nested.
    pub stages: u32,
    /// The `net_height` of the highest of these.
    pub highest_stage: u32,
    /// Whether a form of version 2 is in it.
    pub has_new_form: bool,
    /// Whether a letter is in it, so that it is a pattern.
    pub has_letter: bool,
    /// How many bytes its text has.
    pub length: u64,
    /// A sum of its whole text, for terms that aren't made: see `hash_of`.
    pub hash: u64,
    id: u32,
}

impl PartialEq for Node {
    fn eq(&self, other: &Node) -> bool {
        std::ptr::eq(self, other)
    }
}

impl Eq for Node {}

impl Hash for Node {
    fn hash<H: Hasher>(&self, state: &mut H) {
        state.write_u32(self.id);
    }
}

/// The number of a form in a pattern where that is a letter.
pub const ANY_NUMBER: i64 = -1;

/// All nodes: an open table, by their hashes.
struct Table {
    slots: Vec<Option<Term>>,
    count: usize,
}

const FIRST_SLOTS: usize = 1 << 12;

impl Table {
    fn slot_of(&self, hash: u64, is_it: impl Fn(Term) -> bool) -> usize {
        let mask = self.slots.len() - 1;
        let mut slot = hash as usize & mask;
        while let Some(node) = self.slots[slot] {
            if node.hash == hash && is_it(node) {
                break;
            }
            slot = (slot + 1) & mask;
        }
        slot
    }

    fn grow(&mut self) {
        let larger = self.slots.len() * 2;
        let old = std::mem::replace(&mut self.slots, vec![None; larger]);
        for node in old.into_iter().flatten() {
            let slot = self.slot_of(node.hash, |_| false);
            self.slots[slot] = Some(node);
        }
    }
}

thread_local! {
    static TABLE: RefCell<Table> = RefCell::new(Table { slots: vec![None; FIRST_SLOTS], count: 0 });
}

/// The hash of a term with these parts, made or not.
pub fn hash_of(op: Op, number: i64, ty: Option<Term>, kids: impl Iterator<Item = u64>) -> u64 {
    let mixed = |sum: u64, more: u64| (sum.rotate_left(23) ^ more).wrapping_mul(0x9E37_79B9_7F4A_7C15);
    let own = mixed(mixed(op as u64 + 1, number as u64), ty.map_or(0, |ty| ty.hash));
    let sum = kids.fold(own, mixed);
    sum ^ (sum >> 29)
}

/// The term with these parts.
pub fn put(op: Op, number: i64, ty: Option<Term>, kids: &[Term]) -> Term {
    let hash = hash_of(op, number, ty, kids.iter().map(|kid| kid.hash));
    TABLE.with(|table| {
        let mut table = table.borrow_mut();
        let slot = table.slot_of(hash, |node| node.op == op && node.number == number && node.ty == ty && *node.kids == *kids);
        if let Some(node) = table.slots[slot] {
            return node;
        }
        let node: Term = Box::leak(Box::new(made(op, number, ty, kids, hash, table.count as u32)));
        table.slots[slot] = Some(node);
        table.count += 1;
        if table.count * 3 > table.slots.len() * 2 {
            table.grow();
        }
        node
    })
}

/// A new node.
fn made(op: Op, number: i64, ty: Option<Term>, kids: &[Term], hash: u64, id: u32) -> Node {
    let size = kids.iter().fold(1u64, |sum, kid| sum.saturating_add(kid.size));
    let height = 1 + kids.iter().map(|kid| kid.height).max().unwrap_or(0);
    let net_height = u32::from(op.is_net()) + kids.iter().map(|kid| kid.net_height).max().unwrap_or(0);
    let (stages, highest_stage) = match (op, kids) {
        (Op::Seq, [f, g]) => (f.stages.saturating_add(g.stages), f.highest_stage.max(g.highest_stage)),
        _ => (1, net_height),
    };
    let has_new_form = op.is_new() || kids.iter().any(|kid| kid.has_new_form);
    let is_letter = op == Op::Letter || number == ANY_NUMBER && op != Op::Int;
    let has_letter = is_letter || kids.iter().chain(&ty).any(|kid| kid.has_letter);
    let length = length_with(op, number, ty, kids);
    Node { op, number, ty, kids: kids.into(), size, height, net_height, stages, highest_stage, has_new_form, has_letter, length, hash, id }
}

/// How many bytes the text of a term with these parts has.
fn length_with(op: Op, number: i64, ty: Option<Term>, kids: &[Term]) -> u64 {
    let (word, _, follows, _) = FORMS[op as usize];
    let own = match follows {
        Children(0) if op == Op::Int => number.to_string().len(),
        Children(0) => 0,
        Number(_) => "( )".len() + number.to_string().len(),
        Column(..) => "()(col )".len(),
        _ => "()".len(),
    };
    kids.iter().chain(&ty).fold((word.len() + own) as u64, |sum, kid| sum.saturating_add(1 + kid.length))
}

/// The term of a form with these children.
pub fn node(op: Op, kids: &[Term]) -> Term {
    put(op, 0, None, kids)
}

/// The literal of a number.
pub fn int(number: i64) -> Term {
    put(Op::Int, number, None, &[])
}

/// The literal of a truth value.
pub fn truth(value: bool) -> Term {
    node(if value { Op::True } else { Op::False }, &[])
}

impl Node {
    /// The term with other children.
    pub fn with_kids(&self, kids: &[Term]) -> Term {
        put(self.op, self.number, self.ty, kids)
    }

    /// The term with another child k.
    pub fn with_kid(&self, k: usize, kid: Term) -> Term {
        let mut kids = self.kids.to_vec();
        kids[k] = kid;
        self.with_kids(&kids)
    }

    /// Child k.
    pub fn kid(&self, k: usize) -> Option<Term> {
        self.kids.get(k).copied()
    }

    /// Its number: the greater, the later it was made.
    pub fn id(&self) -> i64 {
        i64::from(self.id)
    }

    /// Whether it is an expression that is the same for each input: a literal, a parameter, no event or the empty list.
    pub fn is_constant(&self) -> bool {
        self.op.is_literal() || matches!(self.op, Op::Param | Op::NoEvent) || self.op == Op::List && self.kids.is_empty()
    }

    /// Whether it and the other one are nodes of one form, with the same number and type, and as many children.
    pub fn is_like(&self, other: Term) -> bool {
        self.op == other.op && self.number == other.number && self.ty == other.ty && self.kids.len() == other.kids.len()
    }

    /// How many frozen networks it brings into the scope of child k.
    pub fn olds_for(&self, k: usize) -> usize {
        match self.op {
            Op::KSwitch if k == 2 => 1,
            Op::PSwitch if k + 1 == self.kids.len() => self.kids.len() - 3,
            _ => 0,
        }
    }
}

/// The part of a term at a path.
pub fn part_at(term: Term, path: &[u32]) -> Option<Term> {
    path.iter().try_fold(term, |part, &k| part.kid(k as usize))
}

/// The term with another part at a path that it has.
pub fn replaced(term: Term, path: &[u32], part: Term) -> Term {
    match path.split_first() {
        None => part,
        Some((&k, rest)) => term.with_kid(k as usize, replaced(term.kids[k as usize], rest, part)),
    }
}
