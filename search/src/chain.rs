//! Chains of stages, and how drafts nest them.
use crate::draft::{Draft, Path};
use crate::laws;
use crate::term::{node, Op, Term};

/// The way to the chain behind so many stages.
pub fn behind(path: &[u32], stages: usize) -> Path {
    let mut way = path.to_vec();
    way.resize(path.len() + stages, 1);
    way
}

/// The way to a stage of the chain of so many at a path.
pub fn stage_way(path: &[u32], stage: usize, count: usize) -> Path {
    let mut way = behind(path, stage);
    if stage + 1 < count {
        way.push(0);
    }
    way
}

/// `(>>> f g)`.
pub fn seq(f: Term, g: Term) -> Term {
    node(Op::Seq, &[f, g])
}

/// The two parts of a chain.
pub fn parts(chain: Term) -> Option<(Term, Term)> {
    match (chain.op, &*chain.kids) {
        (Op::Seq, &[f, g]) => Some((f, g)),
        _ => None,
    }
}

/// The first k stages of a chain.
pub fn front(chain: Term, k: usize) -> Option<Term> {
    match parts(chain) {
        Some((f, _)) if k == 1 => Some(f),
        _ if k == 1 => Some(chain),
        Some((f, rest)) if k > 1 => Some(seq(f, front(rest, k - 1)?)),
        _ => None,
    }
}

/// The chain's first stage.
pub fn head(chain: Term) -> Term {
    parts(chain).map_or(chain, |(f, _)| f)
}

/// A chain, what stands behind its first stage, and so on, to its last stage.
fn rests(chain: Term) -> impl Iterator<Item = Term> {
    std::iter::successors(Some(chain), |rest| parts(rest).map(|(_, more)| more))
}

/// The chain's last stage.
pub fn last(chain: Term) -> Term {
    rests(chain).last().unwrap_or(chain)
}

/// What stands behind so many stages of a chain.
pub fn rest(chain: Term, stages: usize) -> Option<Term> {
    rests(chain).nth(stages)
}

/// How many stages a chain has that is nested to the right.
pub fn length(chain: Term) -> usize {
    rests(chain).count()
}

/// The links of a chain of a form, however they are nested.
pub fn links(op: Op, chain: Term) -> Vec<Term> {
    let mut all = vec![];
    let mut todo = vec![chain];
    while let Some(tree) = todo.pop() {
        if tree.op == op {
            todo.extend(tree.kids.iter().rev());
        } else {
            all.push(tree);
        }
    }
    all
}

/// The stages of a chain, however they are nested.
pub fn stages(chain: Term) -> Vec<Term> {
    links(Op::Seq, chain)
}

/// How many stages stand before the first that is itself a chain.
pub fn before_chain(chain: Term) -> Option<usize> {
    rests(chain).position(|rest| parts(rest).map_or(false, |(f, _)| f.op == Op::Seq))
}

impl Draft {
    /// Whether the chain at a path is nested to the right, or stays low enough when it is.
    pub fn may_flatten(&self, path: &[u32]) -> Option<bool> {
        let chain = self.at(path)?;
        let height = (chain.stages + chain.highest_stage) as usize;
        Some(before_chain(chain).is_none() || height + path.len() <= self.room)
    }

    /// Nests the chain at a path to the right; not where it would be too high.
    pub fn flatten(&mut self, path: &[u32]) -> Option<()> {
        if !self.may_flatten(path)? {
            self.budget.cut();
            return None;
        }
        let mut way = path.to_vec();
        while let Some(stages) = before_chain(self.at(&way)?) {
            way = behind(&way, stages);
            self.forward(laws::NEST, &way)?;
        }
        Some(())
    }

    /// Makes k stages of the chain at a path, behind so many, one tree; answers where it stands.
    pub fn gather(&mut self, path: &[u32], stages: usize, k: usize) -> Option<Path> {
        let mut way = behind(path, stages);
        if rest(self.at(&way)?, k).is_none() {
            return Some(way);
        }
        for j in (1..k).rev() {
            self.back(laws::NEST, &behind(&way, j - 1))?;
        }
        way.push(0);
        Some(way)
    }
}
