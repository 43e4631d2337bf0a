//! The search for a network that costs less: its parts first, then the chain that it is, from its right end to its left one.
//!
//! At each place of a chain the first move that pays is made, then it goes on at the last stage that this touched. Types aren't looked at
//! meanwhile: at the end the moves are taken as a check would take them, and one that it would reject is left out.
use crate::chain::{behind, front, head, length, rest, seq, stage_way, stages};
use crate::cost::{be_led, cost_before, has_lists, net_cost, Led, Next};
use crate::draft::{joined, Budget, Draft, Step};
use crate::exprs::Aim;
use crate::joining::loops_made_one;
use crate::laws;
use crate::memo::Memo;
use crate::moves::{cells_behind, window, windows, Built, Move, MOVES, WIDEST};
use crate::optimise::optimised;
use crate::print;
use crate::read::MOST_BYTES;
use crate::sharing::share_all;
use crate::shorten::shortened;
use crate::single::normal_form;
use crate::term::{Op, Term};
use crate::tuning;
use crate::types::Replay;
use crate::wires::states_of;

/// The most steps of a certificate.
pub const MOST_STEPS: usize = 10_000;

/// A network, and the steps that lead to it.
pub type Found = (Term, Vec<Step>);

/// The cheapest network that is found: what the search makes of the source, what `optimise` makes of it, and what the search makes of that.
/// The source itself, and no step, where none costs less. A small one is searched again, led by less than all that it costs.
pub fn improved(budget: &Budget, input: Term, source: Term) -> Found {
    let mut best = (source, vec![]);
    let ways = [Led::WithoutLists, Led::WithoutHeld, Led::ByAll];
    let count = if source.size > tuning::MOST_TWICE { 1 } else { 2 + usize::from(has_lists(source)) };
    for &led in &ways[..count] {
        be_led(led);
        let found = candidates(budget, input, source);
        be_led(Led::ByAll);
        found.into_iter().for_each(|found| take_if_better(&mut best, found));
    }
    best
}

/// What the search makes of a network, whatever its types are, where so many frozen networks are in scope.
pub fn cheaper(budget: &Budget, net: Term, olds: usize) -> Found {
    let made = Search::new().made(budget, net, olds);
    (made.net(), made.steps)
}

/// What is found. What `optimise` makes isn't searched where the first was more than a certificate holds.
fn candidates(budget: &Budget, input: Term, source: Term) -> Vec<Found> {
    let mut search = Search::new();
    let mut found = vec![searched(&mut search, budget, input, source)];
    if let Some((net, steps)) = optimised(input, source).filter(|found| found.0 != source) {
        if !search.is_full() {
            let (further, more) = searched(&mut search, budget, input, net);
            found.push((further, [steps.clone(), more].concat()));
        }
        found.push((net, steps));
    }
    found
}

/// Takes what was found in place of the best so far, where it costs less and is within the limits of certificates.
fn take_if_better(best: &mut Found, found: Found) {
    if net_cost(found.0) < net_cost(best.0) && fits(&found.1) {
        *best = found;
    }
}

/// Whether steps are within the limits of certificates.
pub fn fits(steps: &[Step]) -> bool {
    steps.len() <= MOST_STEPS && print::length(steps) <= MOST_BYTES
}

/// What the search makes of a network, and of that with loops made one, where this costs less and a certificate holds it.
fn searched(search: &mut Search, budget: &Budget, input: Term, source: Term) -> Found {
    let before = budget.left();
    let found = taken(input, source, moves_of(&search.made(budget, source, 0)));
    let room = search.room;
    if search.is_full() {
        return found;
    }
    let few = Budget::new(before.saturating_sub(budget.left()) / 4 + tuning::FEW_JOINING);
    let joined = loops_made_one(&few, found.0);
    if joined.is_empty() {
        return found;
    }
    let (net, steps) = taken(input, found.0, joined);
    let (net, more) = taken(input, net, moves_of(&search.made(&few, net, 0)));
    search.room = room;
    let all = [found.1.clone(), steps, more].concat();
    if net_cost(net) < net_cost(found.0) && fits(&all) {
        (net, all)
    } else {
        found
    }
}

/// The steps of a draft, by moves.
fn moves_of(draft: &Draft) -> Vec<Vec<Step>> {
    let ends = [&[0], &draft.ends[..], &[draft.steps.len()]].concat();
    ends.windows(2).map(|ends| draft.steps[ends[0]..ends[1]].to_vec()).collect()
}

/// The network to which the moves lead, as far as a certificate has room for their steps, but for those that a check would reject.
fn taken(input: Term, source: Term, moves: Vec<Vec<Step>>) -> Found {
    let mut steps: Vec<Step> = vec![];
    let mut bytes = 0;
    let mut replay = match Replay::new(input, source) {
        Some(replay) => replay,
        None => return (source, steps),
    };
    for made in moves {
        if let Some(made) = made_again(&replay, &made) {
            let more = print::length(&made);
            let is_room = bytes + more <= MOST_BYTES && steps.len() + made.len() <= MOST_STEPS;
            if is_room && replay.take_all(&made).is_some() {
                bytes += more;
                steps.extend(made);
            }
        }
    }
    (replay.net(), steps)
}

/// The steps of a move that was found, as it is made of the network where the replay is: what stands behind its stages may be another,
/// since a move was left out.
fn made_again(replay: &Replay, made: &[Step]) -> Option<Vec<Step>> {
    let first = made.first()?;
    if replay.at(&first.at) == Some(first.before) {
        return Some(made.to_vec());
    }
    let mut draft = Draft::new(&Budget::new(u64::MAX), replay.net(), 0, Aim::Cheap);
    for step in made {
        match (step.law, step.ahead) {
            (laws::NEST, false) => draft.back(laws::NEST, &step.at)?,
            (law, true) => draft.forward(law, &step.at)?,
            (law, false) => draft.backward(law, &step.at, step.after)?,
        }
    }
    Some(draft.steps)
}

/// A network in its surroundings: it, what stands behind it, how many frozen networks are in scope, how high it may be, and how deep moves
/// are made in what moves build.
type Case = (Term, Next, usize, usize, u32);

/// What is found for each network, how often what moves build is improved yet, how many steps and bytes a certificate still holds, and how
/// much work normal forms may still take: nothing while one is improved.
struct Search {
    room: (usize, usize),
    forming: u64,
    moves: Vec<(&'static Move, Option<Term>)>,
    tries: u32,
    built: Memo<Case, Option<Draft>>,
    parts: Memo<Case, Draft>,
    fruitless: Memo<Case, ()>,
}

/// How many stages a move that pays is made of, and what it makes of them.
type Paying = (usize, Draft);

fn case_of(draft: &Draft, next: Next, depth: u32) -> Case {
    let net = draft.net();
    let enough = (net.stages + net.highest_stage) as usize + tuning::ROOM;
    (net, next, draft.olds, draft.room.min(enough), depth)
}

impl Search {
    fn new() -> Search {
        let moves = MOVES.iter().map(|moved| (moved, moved.form())).collect();
        Search { room: (0, 0), forming: 0, moves, tries: 0, built: Memo::default(), parts: Memo::default(), fruitless: Memo::default() }
    }

    /// What moves make of a network that makes it cost less, where so many frozen networks are in scope.
    fn made(&mut self, budget: &Budget, net: Term, olds: usize) -> Draft {
        self.tries = tuning::MOST_TRIES;
        self.forming = tuning::MOST_FORMING;
        self.room = (MOST_STEPS, MOST_BYTES);
        let mut draft = Draft::new(budget, net, olds, Aim::Cheap);
        self.improve(&mut draft, Next::Nothing);
        draft
    }

    /// Counts steps that were found, not those of what stands in the network.
    fn count(&mut self, steps: &[Step]) {
        self.room = (self.room.0.saturating_sub(steps.len()), self.room.1.saturating_sub(print::length(steps)));
    }

    /// Whether a certificate holds no more than was found.
    fn is_full(&self) -> bool {
        self.room.0 == 0 || self.room.1 == 0
    }

    /// Improves a network and what stands in it. A chain that would be too high where it is nested to the right is improved in the two
    /// parts that it is made of.
    fn improve(&mut self, draft: &mut Draft, next: Next) -> Option<()> {
        let is_low = draft.may_flatten(&[])?;
        if draft.net().op == Op::Seq && is_low {
            self.improve_stages(draft)?;
        } else {
            self.improve_children(draft)?;
        }
        if !draft.may_flatten(&[])? {
            return Some(());
        }
        let before = draft.steps.len();
        let done = self.settle(draft, next, tuning::MOST_BUILT);
        self.count(&draft.steps[before..]);
        done?;
        self.take_form(draft, next);
        Some(())
    }

    /// Takes what the search makes of the network's normal form, where less stands in that than in the network, it costs much less, and what
    /// is shared stays so.
    fn take_form(&mut self, draft: &mut Draft, next: Next) -> Option<()> {
        let net = draft.net();
        let few = Budget::new(self.forming);
        if contents(net) == 0 || !few.spend(net.size) {
            return None;
        }
        let formed = Some(normal_form(&few, net, draft.olds)).filter(|formed| formed.is_done && contents(formed.net) < contents(net));
        self.forming = few.left();
        let mut made = Draft::new(&draft.budget, net, draft.olds, draft.clearing);
        made.room = draft.room;
        made.took(&[], formed.as_ref()?.net, &formed?.steps)?;
        share_all(&mut made, &[])?;
        let (room, forming) = (self.room, std::mem::take(&mut self.forming));
        let done = self.improve(&mut made, next);
        (self.room, self.forming) = (room, forming);
        let cost = cost_before(net, next);
        done.filter(|()| cost_before(made.net(), next) < cost - cost / tuning::LEAST_SAVED && operations(made.net()) <= operations(net))?;
        let steps = shortened(net, &made.steps);
        self.count(&steps);
        draft.end_move();
        draft.took(&[], made.net(), &steps)?;
        draft.end_move();
        Some(())
    }

    /// Improves the stages of the chain, from the last to the first.
    fn improve_stages(&mut self, chain: &mut Draft) -> Option<()> {
        chain.flatten(&[])?;
        self.count(&chain.steps);
        chain.end_move();
        let count = length(chain.net());
        (0..count).rev().try_for_each(|stage| self.improve_part(chain, &stage_way(&[], stage, count), Next::Nothing))
    }

    /// Improves the children of the network.
    fn improve_children(&mut self, draft: &mut Draft) -> Option<()> {
        let net = draft.net();
        let next = if net.op == Op::LoopPre { Next::Feedback } else { Next::Nothing };
        for (kid, k) in net.kids.iter().zip(0u32..) {
            if kid.op.is_net() {
                self.improve_part(draft, &[k], next)?;
            } else {
                let before = draft.steps.len();
                draft.clear(&[k])?;
                self.count(&draft.steps[before..]);
                draft.end_move();
            }
        }
        Some(())
    }

    /// Improves the network at a path.
    fn improve_part(&mut self, draft: &mut Draft, path: &[u32], next: Next) -> Option<()> {
        if self.is_full() || !draft.budget.spend(1) {
            return Some(());
        }
        let mut inner = draft.inner(path)?;
        let case = case_of(&inner, next, 0);
        if let Some(done) = self.parts.get(&case) {
            draft.adopt_moves(path, done)?;
            let steps = done.steps.clone();
            self.count(&steps);
            return Some(());
        }
        self.improve(&mut inner, next)?;
        draft.adopt_moves(path, &inner)?;
        if inner.steps.len() <= tuning::MOST_KEPT {
            self.parts.insert(case, inner);
        }
        Some(())
    }

    /// Makes moves in the chain, from its right end to its left one, as long as one pays.
    fn settle(&mut self, chain: &mut Draft, next: Next, depth: u32) -> Option<()> {
        chain.flatten(&[])?;
        chain.end_move();
        let mut stages = Stages::of(chain.net());
        let mut place = stages.stages.len();
        for _ in 0..tuning::MOST_PLACES {
            if place == 0 || self.is_full() || !chain.budget.spend(place as u64) {
                break;
            }
            place -= 1;
            if let Some(paying) = self.find(chain, stages.from(place), next, depth) {
                let reach = place + 1 + paying.0;
                let count = stages.stages.len();
                stages.put(place, &paying)?;
                place = (reach + stages.stages.len()).saturating_sub(count).min(stages.stages.len());
            }
        }
        stages.end(chain)
    }

    /// The first move that pays at the first stages here.
    fn find(&mut self, chain: &Draft, here: Term, next: Next, depth: u32) -> Option<Paying> {
        let case = self.surroundings(chain, here, next, depth);
        if case.map_or(false, |case| self.fruitless.contains_key(&case)) {
            return None;
        }
        let windows = windows(here);
        let found = (0..self.moves.len()).find_map(|k| {
            let (moved, form) = self.moves[k];
            let window = window(form, here, &windows)?;
            Some((length(window), self.attempt(chain, here, moved, window, next, depth)?))
        });
        if let (None, Some(case), true) = (&found, case, chain.budget.left() > 0) {
            self.fruitless.insert(case, ());
        }
        found
    }

    /// All that moves look at here, where that isn't more than they do but for one along cells.
    fn surroundings(&self, chain: &Draft, here: Term, next: Next, depth: u32) -> Option<Case> {
        if cells_behind(here) + 2 > WIDEST {
            return None;
        }
        match front(here, WIDEST + 1) {
            Some(seen) => Some((seen, Next::Nothing, chain.olds, chain.room, depth)),
            None => Some((here, next, chain.olds, chain.room, depth)),
        }
    }

    /// What the move makes of the first stages here, where that pays.
    fn attempt(&mut self, chain: &Draft, here: Term, moved: &Move, window: Term, next: Next, depth: u32) -> Option<Draft> {
        if !chain.budget.spend(tuning::MOVE) {
            return None;
        }
        let mut made = Draft::new(&chain.budget, window, chain.olds, chain.clearing);
        made.room = chain.room;
        moved.make(&mut made)?;
        self.improve_built(&mut made, moved.built, depth)?;
        made.flatten(&[])?;
        let behind = match rest(here, length(window)) {
            Some(more) => Next::Stage(head(more)),
            None => next,
        };
        Some(made).filter(|made| cost_before(made.net(), behind) < cost_before(window, behind))
    }

    /// Improves the networks that a move built.
    fn improve_built(&mut self, made: &mut Draft, built: Built, depth: u32) -> Option<()> {
        let next = if made.net().op == Op::LoopPre { Next::Feedback } else { Next::Nothing };
        built.places(made.net()).iter().try_for_each(|path| self.improve_at(made, path, next, depth))
    }

    /// Improves the chain at a path, whose stages are improved but for the expressions of its `arr`s.
    fn improve_at(&mut self, made: &mut Draft, path: &[u32], next: Next, depth: u32) -> Option<()> {
        if depth == 0 {
            return Some(());
        }
        let mut inner = made.inner(path)?;
        let case = case_of(&inner, next, depth);
        if let Some(done) = self.built.get(&case) {
            return made.adopt(path, done.as_ref()?);
        }
        if self.tries == 0 {
            return Some(());
        }
        self.tries -= 1;
        let done = clear_stages(&mut inner).and_then(|()| self.settle(&mut inner, next, depth - 1));
        let found = done.and_then(|()| made.adopt(path, &inner));
        if inner.steps.len() <= tuning::MOST_KEPT {
            self.built.insert(case, done.map(|()| inner));
        }
        found
    }
}

/// How much stands in a network: what its loops, cells and accumulators keep, and all that isn't made of these, `first`s and `arr`s.
fn contents(net: Term) -> u64 {
    let own = match net.op {
        Op::LoopPre | Op::IPre | Op::Hold => states_of(net.kids[0]).len() as u64,
        Op::AccumBy => states_of(net.kids[1]).len() as u64,
        Op::Arr | Op::Seq | Op::First => 0,
        _ => 1,
    };
    net.kids.iter().filter(|kid| kid.op.is_net()).fold(own, |sum, kid| sum.saturating_add(contents(kid)))
}

/// How many sums, comparisons and the like stand in a tree.
fn operations(tree: Term) -> u64 {
    let is_made_up = matches!(tree.op, Op::Fst | Op::Snd | Op::Pair | Op::Then | Op::If | Op::On | Op::Event | Op::List);
    let own = u64::from(tree.op.is_expr() && !tree.kids.is_empty() && !is_made_up);
    tree.kids.iter().fold(own, |sum, kid| sum.saturating_add(operations(kid)))
}

/// Improves the expressions of the chain's `arr`s.
fn clear_stages(chain: &mut Draft) -> Option<()> {
    chain.flatten(&[])?;
    let count = length(chain.net());
    for stage in 0..count {
        let way = stage_way(&[], stage, count);
        if chain.arr_at(&way).is_some() {
            chain.clear(&joined(&way, &[0]))?;
        }
    }
    Some(())
}

/// The stages of a chain that is rewritten, with the steps so far. Only what stands from a place on is made a chain again.
struct Stages {
    stages: Vec<Term>,
    /// The chains of the last stage, the last two, and so on, as far as they were asked for.
    rests: Vec<Term>,
    moves: Vec<Vec<Step>>,
}

impl Stages {
    /// The stages of a chain that is nested to the right.
    fn of(chain: Term) -> Stages {
        Stages { stages: stages(chain), rests: vec![], moves: vec![] }
    }

    /// The chain from a place on.
    fn from(&mut self, place: usize) -> Term {
        while self.rests.len() < self.stages.len() - place {
            let stage = self.stages[self.stages.len() - 1 - self.rests.len()];
            self.rests.push(self.rests.last().map_or(stage, |more| seq(stage, more)));
        }
        self.rests[self.stages.len() - 1 - place]
    }

    /// Puts what a move makes in place of the stages, where so many stand before.
    fn put(&mut self, place: usize, paying: &Paying) -> Option<()> {
        let (count, made) = paying;
        let behind_them = self.stages.len() - place - count;
        let mut here = Draft::new(&Budget::new(u64::MAX), self.from(place), made.olds, made.clearing);
        let fuses = made.steps.first().map_or(false, |step| step.law == laws::FUSE && step.ahead && step.at.is_empty());
        if fuses && made.net().op == Op::Arr && behind_them > 0 {
            // In place of the first step, which makes one `arr` of two, the law that has a stage behind them.
            here.forward(laws::FUSE_FRONT, &[])?;
            here.took(&[0], made.net(), &made.steps[1..])?;
        } else {
            let whole = here.gather(&[], 0, *count)?;
            here.adopt(&whole, made)?;
            here.flatten(&[])?;
        }
        self.stages.splice(place..place + count, stages(made.net()));
        self.rests.truncate(behind_them);
        let way = behind(&[], place);
        self.moves.push(here.steps.iter().map(|step| step.below(&way)).collect());
        Some(())
    }

    /// Puts the stages and the moves into the draft of the chain.
    fn end(mut self, chain: &mut Draft) -> Option<()> {
        let whole = self.from(0);
        for steps in &self.moves {
            chain.took(&[], whole, steps)?;
            chain.end_move();
        }
        Some(())
    }
}

#[cfg(test)]
mod tests {
    use super::*;
    use crate::read::read_file;
    use crate::types::lead;

    /// What is found for a network of numbers, by steps that a check takes.
    fn found(net: &str) -> (Term, Term) {
        let (input, net) = read_file(format!("yampa 1 input Int {}", net).as_bytes()).expect("a network");
        let (better, steps) = improved(&Budget::new(tuning::MOST_IMPROVING), input, net);
        assert!(lead(input, net, better, &steps));
        assert!(net_cost(better) <= net_cost(net));
        (net, better)
    }

    fn is_found(net: &str, better: &str) {
        let wanted = read_file(format!("yampa 1 input Int {}", better).as_bytes()).expect("a network").1;
        assert_eq!(print::text_of(found(net).1), print::text_of(wanted));
    }

    #[test]
    fn forms_of_moves_are_read() {
        assert!(MOVES.iter().all(|moved| moved.form().map_or(true, |form| (1..=WIDEST).contains(&length(form)))));
    }

    #[test]
    fn stages_become_one() {
        is_found("(>>> (arr (add x 1)) (arr (add x 2)))", "(arr (add x 3))");
        is_found("(>>> (>>> time (iPre 0)) (>>> (arr x) time))", "time");
        is_found("(>>> time (>>> (arr 5) (>>> (iPre 5) (delay 3 5))))", "(arr 5)");
    }

    #[test]
    fn what_never_switches_is_what_runs() {
        let sum = "(loopPre 0 (arr (pair (add (fst x) (snd x)) (fst x))))";
        is_found(&format!("(switch (>>> {} (arr (pair x (none Int)))) time)", sum), sum);
    }

    #[test]
    fn members_that_nobody_hears_go() {
        is_found("(>>> (parB integral time) (arr (add (nth x 0 0) 1)))", "(>>> integral (arr (add x 1)))");
        let two = "(arr (add (nth x 0 0) (nth x 1 0)))";
        is_found(
            "(>>> (parB integral (delay 9 0) time) (arr (add (nth x 0 0) (nth x 2 0))))",
            &format!("(>>> (parB integral time) {})", two),
        );
    }

    #[test]
    fn what_nothing_needs_goes() {
        let sum = "(loopPre 0 (arr (pair (add (fst x) (snd x)) (fst x))))";
        let longest = "(if (less (fst x) (snd (snd x))) (snd (snd x)) (fst x))";
        is_found(&format!("(loopPre (pair 0 0) (arr (pair (add (fst x) (fst (snd x))) (pair (fst x) {}))))", longest), sum);
        is_found("(loopPre 5 (arr (pair (add (fst x) (snd x)) 5)))", "(arr (add x 5))");
        is_found("(>>> integral (>>> (arr (pair x x)) (>>> (first (delay 9 0)) (arr (snd x)))))", "integral");
        is_found("(arr (on (if (less x 3) (event x) (none Int)) (add x 1) (add (fst x) 1)))", "(arr (add x 1))");
    }

    #[test]
    fn what_is_made_twice_is_made_once() {
        let twice = "(>>> (arr (pair x x)) (>>> (first integral) (>>> (arr (pair (snd x) (fst x))) (first integral))))";
        is_found(&format!("(>>> {} (arr (add (fst x) (snd x))))", twice), "(>>> integral (arr (mul x 2)))");
    }

    #[test]
    fn what_is_shared_is_not_copied() {
        let sum = "(add (fst x) (snd x))";
        let dear = "(add (mul (add (fst x) (mul (snd x) 3)) (sub (fst x) 7)) (mul (fst x) (add (snd x) (mul (fst x) 5))))";
        for shared in [sum, dear] {
            for two in ["(pair x x)", "(pair x (add x x))", "(pair (mul x x) (sub x 1))"] {
                let net = format!("(loopPre 0 (arr (then {} {})))", shared, two);
                is_found(&net, &format!("(loopPre 0 (>>> (arr {}) (arr {})))", shared, two));
            }
        }
    }

    #[test]
    fn what_is_computed_again_is_handed_on_beside_the_input() {
        let again = "(mul (add (mul x 3) 7) (mul (sub (mul x 5) 2) (add (mul x 11) 13)))";
        let net = "(arr (pair (add E x) (pair (sub E x) (pair (mul E x) (less E x)))))".replace('E', again);
        assert_eq!(print::text_of(found(&net).1).matches("(mul x 11)").count(), 1);
    }

    #[test]
    fn members_compute_no_more_than_what_stands_before_them() {
        let (net, better) =
            found("(>>> (arr (mul (add (mul x 3) 7) (mul (sub (mul x 5) 2) (add (mul x 11) 13)))) (parB integral (iPre 0)))");
        assert_eq!(net, better);
    }

    #[test]
    fn a_network_that_is_as_cheap_as_it_gets_stays() {
        let (net, better) = found("(>>> integral (iPre 7))");
        assert_eq!(net, better);
    }
}
