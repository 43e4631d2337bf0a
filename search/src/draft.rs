//! A network being rewritten, with the steps so far. Each step knows both its trees, so any stretch of steps can be undone.
use crate::exprs::Aim;
use crate::laws::{forward, Law};
use crate::place::Place;
use crate::term::{Op, Term};
use crate::types::MOST_HEIGHT;
use std::cell::Cell;
use std::rc::Rc;

/// The way from a tree to a part of it.
pub type Path = Vec<u32>;

/// A path, and then a further one.
pub fn joined(path: &[u32], below: &[u32]) -> Path {
    [path, below].concat()
}

/// A law taken at a place.
#[derive(Clone, Debug)]
pub struct Step {
    /// The law.
    pub law: Law,
    /// Whether it is taken forward.
    pub ahead: bool,
    /// Where it is taken.
    pub at: Path,
    /// What stood there.
    pub before: Term,
    /// What then stands there.
    pub after: Term,
}

impl Step {
    /// The step below a path.
    pub fn below(&self, path: &[u32]) -> Step {
        Step { at: joined(path, &self.at), ..self.clone() }
    }

    /// The step that leads back.
    pub fn undone(&self) -> Step {
        Step { ahead: !self.ahead, before: self.after, after: self.before, ..self.clone() }
    }
}

/// The steps that lead back from where these lead.
pub fn undone(steps: &[Step]) -> Vec<Step> {
    steps.iter().rev().map(Step::undone).collect()
}

/// The work that is left to a search, estimated in nodes that it visits. Copies share what is left.
#[derive(Clone, Debug)]
pub struct Budget {
    left: Rc<Cell<u64>>,
    cut: Rc<Cell<bool>>,
}

impl Budget {
    /// So many nodes may be visited.
    pub fn new(nodes: u64) -> Budget {
        Budget { left: Rc::new(Cell::new(nodes)), cut: Rc::new(Cell::new(false)) }
    }

    /// Takes off so many nodes; whether some are left.
    pub fn spend(&self, nodes: u64) -> bool {
        self.left.set(self.left.get().saturating_sub(nodes));
        self.left.get() > 0
    }

    /// Notes that something was left as it is: what comes of it could be too large, or too many steps.
    pub fn cut(&self) {
        self.cut.set(true);
    }

    /// Whether the search did all that it could: nothing was too large, and nodes are left.
    pub fn is_whole(&self) -> bool {
        !self.cut.get() && self.left.get() > 0
    }

    /// How many nodes are left to be visited.
    pub fn left(&self) -> u64 {
        self.left.get()
    }
}

/// A network that is rewritten by laws, with the steps so far. Types aren't looked at: who takes the steps does that. A move that doesn't
/// fit answers `None`, and may leave a draft behind that is to be thrown away.
#[derive(Clone, Debug)]
pub struct Draft {
    /// What is left to the search.
    pub budget: Budget,
    /// How many frozen networks are in scope.
    pub olds: usize,
    /// How high it may be.
    pub room: usize,
    /// How far expressions are cleared up.
    pub clearing: Aim,
    /// The steps, in the order in which they were taken.
    pub steps: Vec<Step>,
    /// How many steps there were at the end of each move.
    pub ends: Vec<usize>,
    place: Place,
}

/// Where a draft was, and how many steps it had.
pub type Mark = (Place, usize);

impl Draft {
    /// The network, with no step yet.
    pub fn new(budget: &Budget, net: Term, olds: usize, clearing: Aim) -> Draft {
        let place = Place::new(net);
        Draft { budget: budget.clone(), olds, room: MOST_HEIGHT, clearing, steps: vec![], ends: vec![], place }
    }

    /// Where it is.
    pub fn mark(&self) -> Mark {
        (self.place.clone(), self.steps.len())
    }

    /// Goes back to where it was.
    pub fn back_to(&mut self, mark: &Mark) {
        self.place = mark.0.clone();
        self.steps.truncate(mark.1);
    }

    /// The network.
    pub fn net(&self) -> Term {
        self.place.root()
    }

    /// What stands at a path.
    pub fn at(&self, path: &[u32]) -> Option<Term> {
        self.place.at(path)
    }

    /// How many frozen networks are in scope at a path.
    pub fn olds_at(&self, path: &[u32]) -> usize {
        (0..path.len()).fold(self.olds, |olds, k| {
            let outer = self.place.above().get(k).filter(|_| self.place.path()[..k] == path[..k]).copied();
            olds + outer.or_else(|| self.at(&path[..k])).map_or(0, |outer| outer.olds_for(path[k] as usize))
        })
    }

    /// The network at a path, with no step yet.
    pub fn inner(&self, path: &[u32]) -> Option<Draft> {
        let net = self.at(path).filter(|net| net.op.is_net())?;
        let mut inner = Draft::new(&self.budget, net, self.olds_at(path), self.clearing);
        inner.room = self.room.saturating_sub(path.len());
        Some(inner)
    }

    /// The expression of the `arr` at a path.
    pub fn arr_at(&self, path: &[u32]) -> Option<Term> {
        self.at(path).filter(|tree| tree.op == Op::Arr).map(|tree| tree.kids[0])
    }

    /// Puts a tree at a path that is there, by no step.
    fn put(&mut self, path: &[u32], tree: Term) {
        self.budget.spend(path.len() as u64);
        self.place.go(path);
        self.place.put(tree);
    }

    /// Takes a law forward at a path.
    pub fn forward(&mut self, law: Law, path: &[u32]) -> Option<()> {
        let before = self.at(path).filter(|tree| tree.op.is_net() == law.is_of_nets())?;
        let after = forward(law, before, self.olds_at(path))?;
        self.put(path, after);
        self.steps.push(Step { law, ahead: true, at: path.to_vec(), before, after });
        Some(())
    }

    /// Takes a law backward at a path, to a given tree from which it leads to what stands there.
    pub fn backward(&mut self, law: Law, path: &[u32], given: Term) -> Option<()> {
        let before = self.at(path).filter(|tree| tree.op.is_net() == law.is_of_nets())?;
        forward(law, given, self.olds_at(path)).filter(|&led| led == before)?;
        self.put(path, given);
        self.steps.push(Step { law, ahead: false, at: path.to_vec(), before, after: given });
        Some(())
    }

    /// Takes steps again below a path: where each is taken there must be the tree that it was taken at.
    pub fn follow(&mut self, path: &[u32], steps: &[Step]) -> Option<()> {
        steps.iter().map(|step| step.below(path)).try_for_each(|step| {
            self.at(&step.at).filter(|&tree| tree == step.before)?;
            self.put(&step.at, step.after);
            self.steps.push(step);
            Some(())
        })
    }

    /// Puts a tree at a path, to which steps lead there.
    pub fn took(&mut self, path: &[u32], tree: Term, steps: &[Step]) -> Option<()> {
        self.at(path)?;
        self.put(path, tree);
        self.steps.extend(steps.iter().map(|step| step.below(path)));
        Some(())
    }

    /// Puts the other one's network at a path, to which its steps lead there.
    pub fn adopt(&mut self, path: &[u32], inner: &Draft) -> Option<()> {
        self.took(path, inner.net(), &inner.steps)
    }

    /// The same, where each of its moves is one of this.
    pub fn adopt_moves(&mut self, path: &[u32], inner: &Draft) -> Option<()> {
        let before = self.steps.len();
        self.ends.extend(inner.ends.iter().map(|end| before + end));
        self.adopt(path, inner)
    }

    /// Ends a move, which stands whether or not those behind it can be made.
    pub fn end_move(&mut self) {
        let count = self.steps.len();
        if self.ends.last().map_or(0, |end| *end) < count {
            self.ends.push(count);
        }
    }
}
