//! Types of expressions and networks, within the limits, and whether a step keeps them.
use crate::draft::Step;
use crate::memo::{kept, Memo};
use crate::place::Place;
use crate::read::{filled, fits, template, Letters};
use crate::term::{node, Op, Term, FORMS};
use std::cell::RefCell;

/// How many types may stand in one another.
const MOST_TYPE_HEIGHT: u32 = 32;

/// How many types a type may be made of.
const MOST_TYPE_SIZE: u64 = 256;

/// How many expressions may stand in one another.
pub const MOST_EXPR_HEIGHT: u32 = 256;

/// How many expressions one may be made of.
pub const MOST_EXPR_SIZE: u64 = 100_000;

/// How many networks may stand in one another.
pub const MOST_HEIGHT: usize = 256;

/// The most members of a collection.
pub const MOST_MEMBERS: usize = 64;

/// The longest delay.
const MOST_DELAY: i64 = 4_096;

/// The longest wait of `after` and `repeatedly`.
const MOST_WAIT: i64 = 1 << 62;

/// What is in scope where a tree stands: the types of the parameters, and of the frozen networks, each as a pair of input and output; and
/// the type of its input.
#[derive(Clone, Copy, PartialEq, Eq, Hash, Debug)]
pub struct Standing {
    params: Term,
    olds: Term,
    input: Term,
}

impl Standing {
    /// Where a whole network stands that has this input.
    pub fn alone(input: Term) -> Standing {
        let none = node(Op::Scope, &[]);
        Standing { params: none, olds: none, input }
    }
}

/// A scope with so many more of a type.
fn and_more(scope: Term, ty: Option<Term>, count: usize) -> Term {
    ty.map_or(scope, |ty| node(Op::Scope, &[&scope.kids[..], &vec![ty; count]].concat()))
}

/// The type, where it is within the limits.
fn limited(ty: Term) -> Option<Term> {
    Some(ty).filter(|ty| ty.height <= MOST_TYPE_HEIGHT && ty.size <= MOST_TYPE_SIZE)
}

/// How a form is typed: the type of its input, its children in their order, and the type of its values or outputs. All are patterns: a letter
/// is the same type everywhere, and `T` the type that is part of the form.
struct Rule {
    input: Term,
    kids: Vec<KidRule>,
    output: Term,
}

/// How a child is typed.
struct KidRule {
    /// Whether it stands for as many children as there are.
    is_many: bool,
    is_net: bool,
    input: Term,
    output: Term,
    /// A parameter that is in scope there, and input and output of each frozen network that is.
    param: Option<Term>,
    old: Option<Term>,
    /// Whether the form's input alone tells where it stands.
    is_told: bool,
}

/// The rule that a row of the table of forms spells: `INPUT | CHILD | .. | OUTPUT`.
fn rule(row: &'static str) -> Option<Rule> {
    let parts: Vec<&str> = row.split(" | ").collect();
    match *parts {
        [input, ref kids @ .., output] => {
            let input = template(input);
            Some(Rule { input, kids: kids.iter().map(|kid| kid_rule(kid, input)).collect(), output: template(output) })
        }
        _ => None,
    }
}

/// The same of a child: `INPUT -> OUTPUT` of an expression, `INPUT => OUTPUT` of a network, each of as many behind `*`; then `+ PARAMETER` and
/// `+ FROZEN`.
fn kid_rule(row: &'static str, form_input: Term) -> KidRule {
    let mut parts = row.trim_start_matches('*').split(" + ");
    let arrow = if row.contains(" => ") { " => " } else { " -> " };
    let (input, output) = parts.next().and_then(|way| way.split_once(arrow)).expect("a child's types");
    let (input, output) = (template(input), template(output));
    let (param, old) = (parts.next().map(template), parts.next().map(template));
    let is_told = param.is_none() && is_made_of(input, form_input);
    KidRule { is_many: row.starts_with('*'), is_net: arrow == " => ", input, output, param, old, is_told }
}

/// Whether all letters of a pattern stand in another one.
fn is_made_of(pattern: Term, other: Term) -> bool {
    let stands_in = |other: Term| other == pattern || other.kids.iter().any(|part| is_made_of(pattern, part));
    if pattern.op == Op::Letter {
        stands_in(other)
    } else {
        pattern.kids.iter().all(|part| is_made_of(part, other))
    }
}

/// Asks with the rule of a form, where it has one.
fn with_rule<T>(op: Op, ask: impl FnOnce(&Rule) -> Option<T>) -> Option<T> {
    thread_local! {
        static RULES: Vec<Option<Rule>> = FORMS.iter().map(|form| rule(form.3)).collect();
    }
    RULES.with(|rules| rules[op as usize].as_ref().and_then(ask))
}

impl Rule {
    /// The rule of child k of so many.
    fn kid(&self, k: usize, count: usize) -> Option<&KidRule> {
        let many = self.kids.iter().position(|kid| kid.is_many).unwrap_or(k);
        self.kids.get(k.min(many).max((k + self.kids.len()).saturating_sub(count)))
    }

    /// What the letters stand for by the input and the first children, so many, each of which has to be of its types.
    fn letters(&self, tree: Term, at: Standing, first: usize) -> Option<Letters> {
        let mut letters: Letters = tree.ty.map(|ty| ('T', ty)).into_iter().collect();
        let mut is_typed = fits(self.input, at.input, &mut letters);
        for k in 0..first {
            // What is accumulated is told by what it begins with.
            let k = if tree.op == Op::AccumBy { 1 - k } else { k };
            let (rule, kid) = (self.kid(k, tree.kids.len())?, tree.kids[k]);
            let is_low = tree.op.is_expr() || kid.op.is_net() || kid.height <= MOST_EXPR_HEIGHT && kid.size <= MOST_EXPR_SIZE;
            let ty = type_of(kid, rule.standing(tree, k, at, &letters)?)?;
            is_typed &= is_low && kid.op.is_net() == rule.is_net && fits(rule.output, ty, &mut letters);
        }
        Some(letters).filter(|_| is_typed)
    }

    /// The type of a tree of the form.
    fn output(&self, tree: Term, at: Standing) -> Option<Term> {
        let is_many = tree.op.is_net() && self.kids.iter().any(|kid| kid.is_many);
        if is_many && !(1..=MOST_MEMBERS).contains(&(tree.kids.len() + 1).saturating_sub(self.kids.len())) {
            return None;
        }
        limited(filled(self.output, &self.letters(tree, at, tree.kids.len())?))
    }
}

impl KidRule {
    /// Where child k of a tree stands, which stands there, where letters stand for these.
    fn standing(&self, tree: Term, k: usize, at: Standing, letters: &Letters) -> Option<Standing> {
        let meant = |pattern: Option<Term>| pattern.map(|pattern| filled(pattern, letters));
        let (params, olds) = (and_more(at.params, meant(self.param), 1), and_more(at.olds, meant(self.old), tree.olds_for(k)));
        Some(Standing { params, olds, input: limited(filled(self.input, letters))? })
    }
}

/// Where child k of a tree stands, which stands there.
pub fn kid_standing(tree: Term, k: usize, at: Standing) -> Option<Standing> {
    with_rule(tree.op, |rule| {
        let kid = rule.kid(k, tree.kids.len())?;
        let before = if kid.is_told { 0 } else { k.max(1) };
        kid.standing(tree, k, at, &rule.letters(tree, at, before)?)
    })
}

/// The type of a tree that stands there: of an expression that of its values, of a network that of its outputs; `None` where it has none
/// within the limits. What was found once is kept.
pub fn type_of(tree: Term, at: Standing) -> Option<Term> {
    thread_local! {
        static KNOWN: RefCell<Memo<(Term, Standing), Option<Term>>> = RefCell::default();
    }
    let in_scope = |scope: Term| usize::try_from(tree.number).ok().and_then(|k| scope.kid(k));
    kept(
        &KNOWN,
        (tree, at),
        || !tree.kids.is_empty(),
        || match tree.op {
            Op::Param => in_scope(at.params),
            Op::Old => in_scope(at.olds).filter(|way| way.kids[0] == at.input).map(|way| way.kids[1]),
            Op::Delay if !(1..=MOST_DELAY).contains(&tree.number) => None,
            Op::After | Op::Repeatedly if !(i64::from(tree.op == Op::Repeatedly)..=MOST_WAIT).contains(&tree.number) => None,
            _ => with_rule(tree.op, |rule| rule.output(tree, at)),
        },
    )
}

/// The type of a tree, where that is known whatever its input is: its form tells it, or a part that has the same.
pub fn told_type(tree: Term) -> Option<Term> {
    let found = type_of(tree, Standing::alone(template("?"))).filter(|ty| !ty.has_letter);
    found.or_else(|| form_type(tree))
}

/// The type that the form of a tree tells, whatever its parts are.
fn form_type(tree: Term) -> Option<Term> {
    with_rule(tree.op, |rule| {
        if is_made_of(rule.output, template("T")) {
            return Some(filled(rule.output, &tree.ty.map(|ty| ('T', ty)).into_iter().collect::<Letters>()));
        }
        let mut parts = rule.kids.iter().zip(tree.kids.iter()).filter(|(kid, _)| kid.output == rule.output);
        parts.find_map(|(_, part)| form_type(part))
    })
}

/// A typed network to which steps are taken as the proved program's check takes them, but for the limit of its weight.
#[derive(Clone)]
pub struct Replay {
    place: Place,
    /// Where the trees above the place stand, and last the one at it.
    standings: Vec<Standing>,
    /// How many expressions the whole one has that the place is in.
    leaf_size: u64,
}

impl Replay {
    /// The network, where it is typed.
    pub fn new(input: Term, net: Term) -> Option<Replay> {
        let at = Standing::alone(input);
        type_of(net, at).filter(|_| net.net_height as usize <= MOST_HEIGHT)?;
        Some(Replay { place: Place::new(net), standings: vec![at], leaf_size: 0 })
    }

    /// The network to which the steps led.
    pub fn net(&self) -> Term {
        self.place.root()
    }

    /// What stands at a path.
    pub fn at(&self, path: &[u32]) -> Option<Term> {
        self.place.at(path)
    }

    /// Takes a step; `None` where that isn't typed within the limits, and then it is as before.
    pub fn take(&mut self, step: &Step) -> Option<()> {
        self.go(&step.at)?;
        let at = *self.standings.last()?;
        let here = self.place.here();
        let fits = here == step.before && type_of(here, at).map_or(false, |ty| type_of(step.after, at) == Some(ty));
        let depth = self.place.depth();
        let leaf_depth = self.leaf_depth();
        let is_low = match leaf_depth {
            Some(leaf) => step.after.height as usize + leaf <= MOST_EXPR_HEIGHT as usize,
            None => step.after.net_height as usize + depth <= MOST_HEIGHT,
        };
        let size = (self.leaf_size + step.after.size).saturating_sub(here.size);
        if !fits || !is_low || leaf_depth.is_some() && size > MOST_EXPR_SIZE {
            return None;
        }
        if leaf_depth.is_some() {
            self.leaf_size = size;
        }
        self.place.put(step.after);
        Some(())
    }

    /// Takes all steps; else it is as before.
    pub fn take_all(&mut self, steps: &[Step]) -> Option<()> {
        let mut more = self.clone();
        steps.iter().try_for_each(|step| more.take(step))?;
        *self = more;
        Some(())
    }

    /// How deep the place stands in its whole expression, where it is in one.
    fn leaf_depth(&self) -> Option<usize> {
        if !self.place.here().op.is_expr() {
            return None;
        }
        Some(self.place.above().iter().rev().take_while(|outer| outer.op.is_expr()).count())
    }

    /// Goes to a path that is there.
    fn go(&mut self, path: &[u32]) -> Option<()> {
        while !path.starts_with(self.place.path()) {
            self.place.leave();
            self.standings.pop();
        }
        for &k in &path[self.place.depth()..] {
            let outer = self.place.here();
            let at = kid_standing(outer, k as usize, *self.standings.last()?)?;
            self.place.enter(k)?;
            self.standings.push(at);
            if !outer.op.is_expr() {
                self.leaf_size = self.place.here().size;
            }
        }
        Some(())
    }
}

/// Whether steps lead from one network to another, each as a check would take it.
pub fn lead(input: Term, source: Term, target: Term, steps: &[Step]) -> bool {
    let taken = Replay::new(input, source).and_then(|mut replay| replay.take_all(steps).map(|()| replay.net()));
    taken == Some(target)
}
