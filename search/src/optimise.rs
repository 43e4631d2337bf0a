//! What the program's `optimise` makes of a network: the first law that fits, a tree before its parts, as often as there is one.
use crate::draft::Step;
use crate::laws::{self, forward, Law};
use crate::memo::Memo;
use crate::term::Term;
use crate::tuning::MOST_OPTIMISED;
use crate::types::Replay;

/// The laws that are tried at a network, in this order.
const OF_NETS: [Law; 22] = [
    laws::IDENTITY_FRONT,
    laws::IDENTITY_BACK,
    laws::SOURCE,
    laws::CONSTANT,
    laws::NEST,
    laws::FUSE,
    laws::FUSE_FRONT,
    laws::FIRST_ARR,
    laws::FIRST_HEARD,
    laws::LOOP_UNHEARD,
    laws::HOLD_EVENT,
    laws::HOLD_NONE,
    laws::AFTER_MAP,
    laws::REPEATEDLY_MAP,
    laws::HOLD_MAP,
    laws::ACCUM_MAP,
    laws::SWITCH_NEVER,
    laws::D_SWITCH_NEVER,
    laws::R_SWITCH_NEVER,
    laws::K_SWITCH_NEVER,
    laws::K_SWITCH_RESUMED,
    laws::MEMBER,
];

/// The laws that are tried at an expression, in this order.
const OF_EXPRS: [Law; 14] = [
    laws::INPUT_BEFORE,
    laws::INPUT_BEHIND,
    laws::THEN_NEST,
    laws::CONSTANT_BEHIND,
    laws::FST_OF_PAIR,
    laws::SND_OF_PAIR,
    laws::PAIR_OF_PARTS,
    laws::IF_TRUE,
    laws::IF_FALSE,
    laws::IF_SAME,
    laws::ON_NONE,
    laws::ON_EVENT,
    laws::COMPUTE,
    laws::NTH_KNOWN,
];

/// The laws by which stages go into loops and switches, and past cells.
const GATHERING: [Law; 14] = [
    laws::FIRST_CHAIN,
    laws::LOOP_IN,
    laws::LOOP_OUT,
    laws::LOOP_INNER,
    laws::SWITCH_IN,
    laws::D_SWITCH_IN,
    laws::SWITCH_OUT,
    laws::D_SWITCH_OUT,
    laws::R_SWITCH_OUT,
    laws::DR_SWITCH_OUT,
    laws::CELL_PASS,
    laws::DELAY_PASS,
    laws::LOOP_FIRST,
    laws::DR_SWITCH_NEVER,
];

/// A walk over the network, a tree before its parts.
struct Walk<'l> {
    of_nets: &'l [Law],
    of_exprs: &'l [Law],
    replay: Replay,
    steps: Vec<Step>,
    /// In which trees no law fits, where so many frozen networks are in scope.
    settled: Memo<(Term, usize), ()>,
    /// How many steps were refused, each of which may be taken later.
    refused: usize,
}

/// The network to which `optimise` leads, and its steps.
pub fn optimised(input: Term, net: Term) -> Option<(Term, Vec<Step>)> {
    walked(input, net, &OF_NETS, &OF_EXPRS)
}

/// What laws of networks alone make of a network: as few stages as can be, which stand in loops and switches; and the steps.
pub fn gathered(input: Term, net: Term) -> Option<(Term, Vec<Step>)> {
    walked(input, net, &[&OF_NETS[..], &GATHERING[..]].concat(), &[])
}

/// The network to which the first laws that fit lead, and the steps.
fn walked(input: Term, net: Term, of_nets: &[Law], of_exprs: &[Law]) -> Option<(Term, Vec<Step>)> {
    let mut walk = Walk { of_nets, of_exprs, replay: Replay::new(input, net)?, steps: vec![], settled: Memo::default(), refused: 0 };
    while walk.steps.len() < MOST_OPTIMISED && walk.step_within(walk.replay.net(), &mut vec![], 0) {}
    Some((walk.replay.net(), walk.steps))
}

impl Walk<'_> {
    /// Takes the first step at a tree or in it, where there is one.
    fn step_within(&mut self, tree: Term, path: &mut Vec<u32>, olds: usize) -> bool {
        if self.settled.contains_key(&(tree, olds)) {
            return false;
        }
        let refused = self.refused;
        if self.step_at(tree, path, olds) {
            return true;
        }
        for (kid, k) in tree.kids.iter().zip(0u32..) {
            path.push(k);
            let found = self.step_within(kid, path, olds + tree.olds_for(k as usize));
            path.pop();
            if found {
                return true;
            }
        }
        if self.refused == refused {
            self.settled.insert((tree, olds), ());
        }
        false
    }

    /// Takes the first step at a tree.
    fn step_at(&mut self, tree: Term, path: &[u32], olds: usize) -> bool {
        let laws = if tree.op.is_net() { self.of_nets } else { self.of_exprs };
        for &law in laws {
            if let Some(after) = forward(law, tree, olds) {
                let step = Step { law, ahead: true, at: path.to_vec(), before: tree, after };
                if self.replay.take(&step).is_some() {
                    self.steps.push(step);
                    return true;
                }
                self.refused += 1;
            }
        }
        false
    }
}
