//! What moves do that no law does alone: to expressions, to an `arr`, and to as many stages or members as there are.
use crate::chain::{behind, last, length, seq};
use crate::cost::{is_cell, net_cost};
use crate::draft::{joined, Budget, Draft, Path};
use crate::exprs::{as_behind, as_then, input, pair, parts_in, reached, seen_as, seen_through, then, Aim};
use crate::laws;
use crate::read::template;
use crate::term::{int, node, put, Op, Term};
use crate::trail::Way;
use crate::types::{told_type, MOST_EXPR_HEIGHT, MOST_EXPR_SIZE};

/// Rewrites an expression, where it is of the right form.
pub type Rewriting = fn(&Budget, Term) -> Option<Way>;

impl Draft {
    /// Clears up the expression at a path.
    pub fn clear(&mut self, path: &[u32]) -> Option<()> {
        let e = self.at(path).filter(|e| e.op.is_expr())?;
        let way = reached(&self.budget, self.clearing, e);
        if way.to.height > MOST_EXPR_HEIGHT || way.to.size > MOST_EXPR_SIZE {
            self.budget.cut();
            return None;
        }
        self.took(path, way.to, &way.steps())
    }

    /// Rewrites the expression of the `arr` at a path.
    pub fn rewrite(&mut self, rewriting: Rewriting, path: &[u32]) -> Option<()> {
        let way = rewriting(&self.budget, self.arr_at(path)?)?;
        self.took(&joined(path, &[0]), way.to, &way.steps())
    }

    /// Takes a law backward at a path, where what stands there tells what the law leads from.
    pub fn back(&mut self, law: laws::Law, path: &[u32]) -> Option<()> {
        let given = laws::backward(law, self.at(path)?)?;
        self.backward(law, path, given)
    }
}

/// `(arr e)`.
pub fn arr(e: Term) -> Term {
    node(Op::Arr, &[e])
}

/// The expression behind `unit`, where it doesn't use its input.
pub fn deaf(budget: &Budget, e: Term) -> Option<Way> {
    as_behind(budget, e, template("unit"))
}

/// The expression behind what makes the left part `unit`, where it uses the right part alone.
pub fn deaf_to_left(budget: &Budget, e: Term) -> Option<Way> {
    seen_through(budget, e, template("(snd x)"))?;
    as_then(budget, e, template("LEFT(then unit unit)"), e)
}

/// The expression behind `(fst x)`, where it uses the left part alone.
pub fn behind_first(budget: &Budget, e: Term) -> Option<Way> {
    as_behind(budget, e, template("(fst x)"))
}

/// The expression as itself behind UNASSOC, and that behind ASSOC.
pub fn behind_assoc(budget: &Budget, e: Term) -> Option<Way> {
    as_then(budget, e, template("ASSOC"), then(template("UNASSOC"), e))
}

/// `(pair e (none T))` as e, and behind it the pair with no event.
pub fn never_apart(budget: &Budget, e: Term) -> Option<Way> {
    if e.op != Op::Pair || e.kids[1].op != Op::NoEvent {
        return None;
    }
    as_then(budget, e, e.kids[0], pair(input(), e.kids[1]))
}

/// Parts the `arr`, and the one that is then behind it, as long as that costs less.
pub fn split(w: &mut Draft) -> Option<()> {
    split_at(w, vec![])
}

/// The same of the `arr` at a path.
pub fn split_at(w: &mut Draft, mut way: Path) -> Option<()> {
    while w.clearing == Aim::Cheap && pays_as_two(w.at(&way)?) {
        w.back(laws::FUSE, &way)?;
        way.push(1);
    }
    Some(())
}

/// Whether an `arr` of a `then` costs less as two.
fn pays_as_two(one: Term) -> bool {
    let e = one.kids[0];
    one.op == Op::Arr && e.op == Op::Then && net_cost(seq(arr(e.kids[0]), arr(e.kids[1]))) < net_cost(one)
}

/// Makes a `first` of an `arr` at a path one `arr`, where it is one.
pub fn open(w: &mut Draft, path: &[u32]) -> Option<()> {
    w.forward(laws::FIRST_ARR, path).map_or(Some(()), |()| w.clear(&joined(path, &[0])))
}

/// Parts the last `arr` in a switch, of a pair with no event, and makes what stands before the pair one.
pub fn part_never(w: &mut Draft) -> Option<()> {
    let count = length(w.at(&[0])?);
    let last = behind(&[0], count - 1);
    w.rewrite(never_apart, &last)?;
    w.back(laws::FUSE, &last)?;
    w.gather(&[0], 0, count).map(|_| ())
}

/// Makes all stages in a `first` but the last one, an `arr`, one.
pub fn gather_first(w: &mut Draft) -> Option<()> {
    let inner = w.at(&[0]).filter(|first| first.op == Op::First)?.kids[0];
    if last(inner).op != Op::Arr {
        return None;
    }
    w.gather(&[0, 0], 0, length(inner) - 1).map(|_| ())
}

/// The laws by which an `arr` behind a cell passes it.
const PASSING: [laws::Law; 2] = [laws::CELL_PASS, laws::DELAY_PASS];

/// Takes the last `arr` past all cells but the first stage.
pub fn pass(w: &mut Draft) -> Option<()> {
    (1..length(w.net()) - 1).rev().try_for_each(|stages| {
        let two = w.gather(&[], stages, 2)?;
        PASSING.iter().find_map(|&law| w.forward(law, &two))?;
        w.clear(&joined(&two, &[1, 0]))?;
        w.flatten(&behind(&[], stages))
    })
}

/// Takes the cell before the `arr` of a known value, which the cell begins with too.
pub fn known_cell(w: &mut Draft) -> Option<()> {
    let (e, cell) = (w.arr_at(&[0])?, w.at(&[1]).filter(|cell| is_cell(cell))?);
    let way = as_then(&w.budget, cell.kids[0], cell.kids[0], e)?;
    w.took(&[1, 0], way.to, &way.steps())?;
    PASSING.iter().find_map(|&law| w.backward(law, &[], seq(cell, arr(e))))
}

/// Takes the first output of a chain to its last stage.
pub fn initial_last(w: &mut Draft) -> Option<()> {
    let count = length(w.at(&[1])?);
    w.gather(&[1], 0, count - 1)?;
    w.forward(laws::INITIAL_LAST, &[])
}

/// Brings an `arr` behind members, which looks at one of them alone, to what it does with that.
pub fn one_heard(w: &mut Draft) -> Option<()> {
    let (e, heard, _) = heard_at(w)?;
    let way = as_behind(&w.budget, e, *heard.first()?)?;
    w.took(&[1, 0], way.to, &way.steps())
}

/// The expression of an `arr` behind members, the elements of its input that it looks at, and how many members there are.
fn heard_at(w: &Draft) -> Option<(Term, Vec<Term>, usize)> {
    let (members, e) = (w.at(&[0]).filter(|net| net.op == Op::Par)?, w.arr_at(&[1])?);
    let is_element = |e: &Term| e.op == Op::Nth && e.kids[0].op == Op::Input && e.kids[1].op == Op::Int;
    let is_member = |e: &Term| is_element(e) && (0..members.kids.len() as i64).contains(&e.kids[1].number);
    let heard = parts_in(e).into_iter().map(|(part, _)| part).filter(is_member).collect();
    Some((e, heard, members.kids.len()))
}

/// Takes the stage with which all of two or more members begin before them.
pub fn members_front(w: &mut Draft) -> Option<()> {
    let members = w.at(&[]).filter(|net| net.op == Op::Par && net.kids.len() > 1)?;
    let front = members.kids[0].kid(0).filter(|_| members.kids[0].op == Op::Seq)?;
    let rests: Option<Vec<Term>> = members.kids.iter().map(|f| f.kid(1).filter(|_| f.op == Op::Seq && f.kids[0] == front)).collect();
    w.backward(laws::MEMBERS_IN, &[], seq(front, node(Op::Par, &rests?)))
}

/// Makes members that are all `arr`s one of a list, where the form of one tells its type.
pub fn members_as_arr(w: &mut Draft) -> Option<()> {
    let members = w.at(&[]).filter(|net| net.op == Op::Par && net.kids.iter().all(|f| f.op == Op::Arr))?;
    let all: Vec<Term> = members.kids.iter().map(|f| f.kids[0]).collect();
    let element = all.iter().find_map(|e| told_type(e))?;
    let list = put(Op::List, 0, Some(element), &all);
    w.backward(laws::MEMBERS_ARR, &[], arr(list))
}

/// Makes members at a path, behind which an `arr` makes a list of so many of them, these.
fn take_members(w: &mut Draft, path: &[u32], count: usize) -> Option<()> {
    w.forward(laws::MEMBERS_ARR, &joined(path, &[1]))?;
    w.forward(laws::MEMBERS_IN, path)?;
    (0..count as u32).try_for_each(|k| w.forward(laws::MEMBER, &joined(path, &[k])))
}

/// Drops the members that an `arr` behind them doesn't look at, where it looks at two others or more, and at nothing else.
pub fn some_heard(w: &mut Draft) -> Option<()> {
    let (e, heard, count) = heard_at(w)?;
    let mut members = heard.clone();
    members.sort_by_key(|element| element.kids[1].number);
    members.dedup_by_key(|element| element.kids[1]);
    if members.len() < 2 || members.len() == count {
        return None;
    }
    let place = |element: Term| members.iter().position(|member| member.kids[1] == element.kids[1]);
    let seen: Vec<(Term, Term)> = heard.iter().map(|e| (*e, e.with_kid(1, int(place(e).map_or(0, |k| k as i64))))).collect();
    let list = put(Op::List, 0, Some(told_type(members[0].kids[2])?), &members);
    let way = as_then(&w.budget, e, list, seen_as(&w.budget, e, &seen)?)?;
    w.took(&[1, 0], way.to, &way.steps())?;
    w.back(laws::FUSE, &[1])?;
    w.back(laws::NEST, &[])?;
    take_members(w, &[0], members.len())
}
