//! Loops and cells made one loop round one `arr`.
use crate::acts::split_at;
use crate::chain::{before_chain, behind, front, head, length, rest, stage_way};
use crate::cost::net_cost;
use crate::draft::{joined, Budget, Draft, Path, Step};
use crate::exprs::Aim;
use crate::sharing::share_all;
use crate::single::single;
use crate::term::{Op, Term};
use crate::tuning;

/// Moves that make loops and cells of the network, of which some are in a `first`, one loop, where that costs much less.
pub fn loops_made_one(budget: &Budget, net: Term) -> Vec<Vec<Step>> {
    let mut joining = Joining { draft: Draft::new(budget, net, 0, Aim::Cheap), todo: vec![vec![]], moves: vec![] };
    while let Some(way) = joining.todo.pop() {
        if joining.join_at(&way).is_none() {
            break;
        }
    }
    joining.moves
}

/// A network of which loops and cells are made one.
struct Joining {
    draft: Draft,
    /// Where the chains stand that weren't looked at yet.
    todo: Vec<Path>,
    /// The steps of each move.
    moves: Vec<Vec<Step>>,
}

impl Joining {
    /// Makes loops and cells of the chain at a path one; what is left of its stages is to be looked at then.
    fn join_at(&mut self, way: &[u32]) -> Option<()> {
        let chain = self.draft.at(way)?;
        if before_chain(chain).is_some() {
            self.add_children(way);
            return Some(());
        }
        for stage in (0..length(chain)).rev() {
            self.join_from(way, stage)?;
        }
        let count = length(self.draft.at(way)?);
        (0..count).for_each(|stage| self.add_children(&stage_way(way, stage, count)));
        Some(())
    }

    /// Adds where the networks stand in the one at a path.
    fn add_children(&mut self, path: &[u32]) {
        let net = self.draft.at(path);
        let kids = net.map_or(&[][..], |net| &net.kids);
        self.todo.extend(kids.iter().zip(0u32..).filter(|(kid, _)| kid.op.is_net()).map(|(_, k)| joined(path, &[k])));
    }

    /// Makes one loop of the most stages of the chain at a path, from this one on, of which that costs less.
    fn join_from(&mut self, path: &[u32], stage: usize) -> Option<()> {
        let here = rest(self.draft.at(path)?, stage)?;
        for stages in (1..=tuning::MOST_JOINED_STAGES).rev() {
            if !self.draft.budget.spend(stages as u64) {
                return None;
            }
            if let Some(made) = self.made_one(path, here, stages) {
                let way = self.draft.gather(path, stage, stages)?;
                self.draft.adopt(&way, &made)?;
                self.draft.flatten(&behind(path, stage))?;
                self.moves.push(std::mem::take(&mut self.draft.steps));
                return Some(());
            }
        }
        Some(())
    }

    /// One loop of the first stages here, where that costs much less; not before a `first`, which would have to make the pair anew that a
    /// loop keeps.
    fn made_one(&self, path: &[u32], here: Term, stages: usize) -> Option<Draft> {
        let window = front(here, stages)?;
        if rest(here, stages).map_or(false, |more| head(more).op == Op::First) {
            return None;
        }
        let enough = most_cost(window)?;
        let olds = self.draft.olds_at(path);
        let ways = [Aim::Cheap, Aim::Plain].into_iter().filter_map(|aim| self.made_by(aim, window, olds, enough));
        ways.min_by_key(|made| net_cost(made.net()))
    }

    /// One loop of the network, where it costs no more: what is carried inwards copies nothing, or what it copies is shared again.
    fn made_by(&self, aim: Aim, window: Term, olds: usize, enough: u64) -> Option<Draft> {
        let mut made = Draft::new(&self.draft.budget, window, olds, aim);
        single(&mut made, &[])?;
        self.draft.budget.spend(made.steps.len() as u64);
        let body: Path = if made.net().op == Op::LoopPre { vec![1] } else { vec![] };
        if aim == Aim::Plain && net_cost(made.net()) <= enough {
            made.clearing = Aim::Cheap;
            share_all(&mut made, &[])?;
            made.clear(&joined(&body, &[0]))?;
        }
        split_at(&mut made, body)?;
        Some(made).filter(|made| made.clearing == Aim::Cheap && net_cost(made.net()) <= enough)
    }
}

/// What one loop of what stands in the network may cost at most: a part less than that costs, and less for each state beyond two. Nothing where
/// no `first` stands beside a loop or a cell, or others than these and `arr`s, or many.
fn most_cost(net: Term) -> Option<u64> {
    let (mut firsts, mut states): (u64, u64) = (0, 0);
    let mut todo = vec![net];
    for _ in 0..tuning::MOST_JOINED_NETS {
        let part = match todo.pop() {
            Some(part) => part,
            None => break,
        };
        match part.op {
            Op::Arr | Op::Seq => {}
            Op::IPre | Op::Hold | Op::AccumBy | Op::LoopPre => states += 1,
            Op::First => firsts += 1,
            _ => return None,
        }
        todo.extend(part.kids.iter().filter(|kid| kid.op.is_net()));
    }
    let (cost, more) = (net_cost(net), states.saturating_sub(2).saturating_mul(tuning::STATE));
    Some((cost - cost / tuning::LEAST_SAVED).saturating_sub(more)).filter(|_| todo.is_empty() && firsts > 0 && states > 0)
}
