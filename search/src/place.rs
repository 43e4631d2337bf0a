//! A place in a tree that is changed there.
use crate::term::{part_at, Term};

/// A place: what stands there, and what that stands in, the whole first. Only the tree at the place is as it is now; what it stands in is
/// made when the place is left, so that changes near one another don't make the whole each time.
#[derive(Clone, Debug)]
pub struct Place {
    here: Term,
    above: Vec<Term>,
    path: Vec<u32>,
}

impl Place {
    /// The root of a tree.
    pub fn new(root: Term) -> Place {
        Place { here: root, above: vec![], path: vec![] }
    }

    /// What stands at the place.
    pub fn here(&self) -> Term {
        self.here
    }

    /// What the place stands in, the whole first; what is behind the place there may be older.
    pub fn above(&self) -> &[Term] {
        &self.above
    }

    /// The way to the place.
    pub fn path(&self) -> &[u32] {
        &self.path
    }

    /// How deep the place stands.
    pub fn depth(&self) -> usize {
        self.path.len()
    }

    /// The whole tree.
    pub fn root(&self) -> Term {
        let mut place = self.clone();
        place.go(&[]);
        place.here
    }

    /// Puts another tree at the place.
    pub fn put(&mut self, tree: Term) {
        self.here = tree;
    }

    /// Goes to what the tree stands in.
    pub fn leave(&mut self) {
        if let (Some(k), Some(outer)) = (self.path.pop(), self.above.pop()) {
            let k = k as usize;
            self.here = if outer.kids[k] == self.here { outer } else { outer.with_kid(k, self.here) };
        }
    }

    /// Goes to child k, if it is there.
    pub fn enter(&mut self, k: u32) -> Option<()> {
        let inner = self.here.kid(k as usize)?;
        self.above.push(self.here);
        self.path.push(k);
        self.here = inner;
        Some(())
    }

    /// Goes to a path, as far as that is there.
    pub fn go(&mut self, path: &[u32]) -> Option<()> {
        while !path.starts_with(&self.path) {
            self.leave();
        }
        path[self.path.len()..].iter().try_for_each(|&k| self.enter(k))
    }

    /// What stands at a path.
    pub fn at(&self, path: &[u32]) -> Option<Term> {
        let common = self.path.iter().zip(path).take_while(|(a, b)| a == b).count();
        if common == self.path.len() {
            return part_at(self.here, &path[common..]);
        }
        if common < path.len() {
            return part_at(self.above[common], &path[common..]);
        }
        let mut place = self.clone();
        place.go(path);
        Some(place.here)
    }
}
