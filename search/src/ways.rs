//! The ways from a network to another that are tried.
use crate::climb::brought_nearer;
use crate::draft::{undone, Budget, Step};
use crate::improve::{fits, improved, Found, MOST_STEPS};
use crate::laws::LAST_VERSION;
use crate::lazily::lazily;
use crate::optimise::{gathered, optimised};
use crate::places::ways_between;
use crate::shorten::{shortened, told_briefly, Ways};
use crate::single::{normal_form, Formed};
use crate::term::Term;
use crate::tuning;
use crate::types::lead;
use std::collections::HashMap;

/// The steps of both to a third network.
type Both = Option<Ways>;

/// A way, and so few steps as are enough: where they were found, neither it nor any behind it is tried.
type Looking = (usize, fn(&mut Search) -> Both);

/// Steps of laws up to this version are tried first: with all, the search is so broad that it finds less.
const OLDER: u8 = 3;

/// The ways in their order.
const WAYS: [Looking; 10] = [
    // By what `optimise` makes of the source, and by what costs less than it.
    (MOST_STEPS, |search| search.of_source(Rewriting::Optimised)),
    (MOST_STEPS, |search| search.of_source(Rewriting::Cheaper)),
    // At the places where the two differ.
    (MOST_STEPS, |search| search.on_from((search.source, vec![]), (search.target, vec![]), tuning::MOST_WORK)),
    // By what laws of networks alone make of both.
    (tuning::FEW_STEPS, Search::gathered),
    // By what `optimise` makes of both, and by what costs less than both.
    (tuning::FEW_STEPS, |search| search.of_both(Rewriting::Optimised)),
    (tuning::MANY_STEPS, |search| search.of_both(Rewriting::Cheaper)),
    // By steps that bring them nearer.
    (tuning::MANY_STEPS, |search| search.nearer(OLDER, tuning::MOST_CLIMBING)),
    // By their normal forms.
    (tuning::VERY_MANY_STEPS, Search::at_forms),
    // By steps that bring them nearer, of all laws.
    (tuning::VERY_MANY_STEPS, |search| search.nearer(LAST_VERSION, tuning::FEW_CLIMBING)),
    // Where their normal forms differ.
    (tuning::VERY_MANY_STEPS, Search::behind_forms),
];

/// What a network is rewritten to.
#[derive(Clone, Copy, PartialEq, Eq, Hash)]
enum Rewriting {
    /// What `optimise` makes of it.
    Optimised,
    /// What costs less.
    Cheaper,
}

/// A search for the way from a network to another.
pub struct Search {
    input: Term,
    source: Term,
    target: Term,
    /// How many nodes were visited.
    pub nodes: u64,
    /// The normal forms of source and target, where these were looked for and aren't one.
    pub forms: Option<(Formed, Formed)>,
    rewritten: HashMap<(Rewriting, Term), Option<Found>>,
}

impl Search {
    /// A search from a source to a target, of this input type.
    pub fn new(input: Term, source: Term, target: Term) -> Search {
        Search { input, source, target, nodes: 0, forms: None, rewritten: HashMap::new() }
    }

    /// The fewest steps found that lead from the source to the target, each as a check would take it.
    pub fn shortest(&mut self) -> Option<Vec<Step>> {
        let mut best: Option<Vec<Step>> = None;
        for (enough, by) in WAYS {
            if best.as_ref().map_or(false, |steps| steps.len() <= enough) {
                break;
            }
            let found = by(self).and_then(|(there, back)| self.led([there, undone(&back)].concat()));
            best = best.into_iter().chain(found).min_by_key(|steps| (!fits(steps), steps.len()));
        }
        best
    }

    /// The fewest steps of these, of them without those that lead nowhere, and of them with steps in expressions only where laws of networks
    /// need them, that lead from the source to the target.
    fn led(&mut self, steps: Vec<Step>) -> Option<Vec<Step>> {
        let (source, target) = (self.source, self.target);
        let direct = shortened(source, &steps);
        let is_small = source.size.saturating_mul(direct.len() as u64) <= tuning::MOST_TAKEN_AGAIN;
        let lazy = self.within(tuning::MOST_WORK, |budget| {
            Some(budget).filter(|_| is_small || !fits(&direct)).and_then(|budget| lazily(budget, source, target, &direct))
        });
        let mut all =
            [lazy.map_or(vec![], |lazy| vec![told_briefly(&lazy), shortened(source, &lazy)]), vec![told_briefly(&direct), direct, steps]]
                .concat();
        all.sort_by_key(|steps| (!fits(steps), steps.len()));
        all.into_iter().find(|steps| lead(self.input, source, target, steps))
    }

    /// Lets a search visit so many nodes at most, and counts them.
    fn within<T>(&mut self, most: u64, search: impl FnOnce(&Budget) -> T) -> T {
        let budget = Budget::new(most);
        let found = search(&budget);
        self.nodes += most - budget.left();
        found
    }

    /// What a network is rewritten to, each once.
    fn rewritten(&mut self, how: Rewriting, net: Term) -> Option<Found> {
        if let Some(found) = self.rewritten.get(&(how, net)) {
            return found.clone();
        }
        let input = self.input;
        let found = match how {
            Rewriting::Optimised => optimised(input, net),
            Rewriting::Cheaper => Some(self.within(tuning::MOST_IMPROVING, |budget| improved(budget, input, net))),
        };
        self.rewritten.insert((how, net), found.clone());
        found
    }

    /// The steps of the source, where it is rewritten to the target.
    fn of_source(&mut self, how: Rewriting) -> Both {
        let (net, steps) = self.rewritten(how, self.source)?;
        Some((steps, vec![])).filter(|_| net == self.target)
    }

    /// The steps to what both are rewritten to.
    fn of_both(&mut self, how: Rewriting) -> Both {
        let (source, target) = (self.rewritten(how, self.source)?, self.rewritten(how, self.target)?);
        if target.0 == self.source {
            return Some((vec![], target.1));
        }
        self.on_from(source, target, tuning::MOST_BETWEEN)
    }

    /// The steps to two networks, and on to where these are one, at the places where they differ, which visits so many nodes at most.
    fn on_from(&mut self, first: Found, second: Found, most: u64) -> Both {
        let (there, back) = self.within(most, |budget| ways_between(budget, first.0, second.0, 0))?;
        Some(([first.1, there].concat(), [second.1, back].concat()))
    }

    fn gathered(&mut self) -> Both {
        let (first, second) = (gathered(self.input, self.source)?, gathered(self.input, self.target)?);
        self.on_from(first, second, tuning::MOST_BETWEEN)
    }

    /// The steps to the nearest two networks that are found, and on to one, at the places where these differ.
    fn nearer(&mut self, version: u8, most: u64) -> Both {
        let (source, target) = (self.source, self.target);
        let (first, second) = self.within(most, |budget| brought_nearer(budget, source, target, version))?;
        self.on_from(first, second, tuning::MOST_BETWEEN)
    }

    /// The steps to the normal forms of both, where these are one; else the forms are kept.
    fn at_forms(&mut self) -> Both {
        let (source, target) = (self.source, self.target);
        let there = self.within(tuning::MOST_WORK, |budget| normal_form(budget, source, 0));
        let back = self.within(tuning::MOST_WORK, |budget| normal_form(budget, target, 0));
        if there.net == back.net {
            return Some((there.steps, back.steps));
        }
        self.forms = Some((there, back));
        None
    }

    fn behind_forms(&mut self) -> Both {
        let (there, back) = self.forms.as_ref().filter(|(there, back)| there.net.size.max(back.net.size) <= tuning::MOST_SINGLE_SIZE)?;
        let (there, back) = ((there.net, there.steps.clone()), (back.net, back.steps.clone()));
        self.on_from(there, back, tuning::MOST_BETWEEN)
    }
}
