//! Two chains, of stages or of `then`s, nested alike.
use crate::chain::links;
use crate::draft::{joined, Budget, Draft, Path};
use crate::laws::{self, Law};
use crate::term::{Op, Term};
use crate::tuning::{LOOK, MOST_STAGE_PAIRS};

/// After how many links of either chain both are cut.
type Cut = (usize, usize);

/// The law by which chains of a form are nested otherwise, where it has such chains.
pub fn nesting(op: Op) -> Option<Law> {
    match op {
        Op::Seq => Some(laws::NEST),
        Op::Then => Some(laws::THEN_NEST),
        _ => None,
    }
}

/// How many links a part of a chain of a form has.
fn count(op: Op, part: Term) -> usize {
    match op {
        Op::Seq => part.stages as usize,
        _ => links(op, part).len(),
    }
}

/// Nests the two chains at a path alike, cut where links are the same, or one by one where as many differ; answers where what stands between
/// cuts then is. Nothing where that is the whole.
pub fn nested_alike(first: &mut Draft, second: &mut Draft, path: &[u32], one_by_one: bool) -> Option<Vec<Path>> {
    let (a, b) = (first.at(path)?, second.at(path)?);
    let (a, b) = (links(a.op, a), links(b.op, b));
    let cuts = cuts(&first.budget, &a, &b, one_by_one);
    let mut places = vec![];
    nest(first, second, path, &cuts, &mut places)?;
    Some(places).filter(|places| places.len() > 1)
}

/// Where both chains are cut, between which there are links of both.
fn cuts(budget: &Budget, a: &[Term], b: &[Term], one_by_one: bool) -> Vec<Cut> {
    let end = (a.len(), b.len());
    let mut all = vec![];
    let mut from = (0, 0);
    for (i, j) in same_links(budget, a, b).into_iter().chain([end]) {
        if one_by_one && i - from.0 == j - from.1 {
            all.extend((0..i - from.0).map(|k| (from.0 + k, from.1 + k)));
        }
        from = (i + 1, j + 1);
        all.extend([(i, j), from]);
    }
    let mut kept = vec![(0, 0)];
    for (i, j) in all {
        let last = kept[kept.len() - 1];
        if last.0 < i && last.1 < j && i < end.0 && j < end.1 {
            kept.push((i, j));
        }
    }
    kept.push(end);
    kept
}

/// Links of both that are the same, as many as there are in one order.
fn same_links(budget: &Budget, a: &[Term], b: &[Term]) -> Vec<Cut> {
    let alike = |(f, g): &(&Term, &Term)| f == g;
    let front = a.iter().zip(b).take_while(alike).count();
    let back = a[front..].iter().rev().zip(b[front..].iter().rev()).take_while(alike).count();
    let (m, n) = (a.len() - back, b.len() - back);
    let mut found: Vec<Cut> = (0..front).map(|k| (k, k)).collect();
    let pairs = (m - front) * (n - front);
    if pairs <= MOST_STAGE_PAIRS && budget.spend((a.len() + b.len() + pairs / LOOK as usize) as u64) {
        found.extend(in_one_order(&a[front..m], &b[front..n]).into_iter().map(|(i, j)| (front + i, front + j)));
    }
    found.extend((0..back).map(|k| (m + k, n + k)));
    found
}

/// The same of what begins and ends with links that differ.
fn in_one_order(a: &[Term], b: &[Term]) -> Vec<Cut> {
    let mut most = vec![vec![0; b.len() + 1]; a.len() + 1];
    for i in (0..a.len()).rev() {
        for j in (0..b.len()).rev() {
            most[i][j] = if a[i] == b[j] { most[i + 1][j + 1] + 1 } else { most[i + 1][j].max(most[i][j + 1]) };
        }
    }
    let mut found = vec![];
    let (mut i, mut j) = (0, 0);
    while i < a.len() && j < b.len() {
        if a[i] == b[j] {
            found.push((i, j));
            (i, j) = (i + 1, j + 1);
        } else if most[i + 1][j] == most[i][j] {
            i += 1;
        } else {
            j += 1;
        }
    }
    found
}

/// Nests the two chains at a path alike, which begin at the first of these cuts and end at the last, as the second one is where it can stay.
fn nest(first: &mut Draft, second: &mut Draft, path: &[u32], cuts: &[Cut], places: &mut Vec<Path>) -> Option<()> {
    if cuts.len() == 2 {
        places.push(path.to_vec());
        return Some(());
    }
    let (from, inner) = (cuts[0], &cuts[1..cuts.len() - 1]);
    let fronts = [front_count(second, path)? + from.1, front_count(first, path)? + from.0];
    let second_at = inner.iter().position(|cut| cut.1 == fronts[0]);
    let first_at = inner.iter().position(|cut| cut.0 == fronts[1]);
    let near = inner.iter().position(|cut| cut.1 > fronts[0]).unwrap_or(inner.len() - 1);
    let k = second_at.or(first_at).unwrap_or(near) + 1;
    split(first, path, cuts[k].0 - from.0)?;
    split(second, path, cuts[k].1 - from.1)?;
    nest(first, second, &joined(path, &[0]), &cuts[..=k], places)?;
    nest(first, second, &joined(path, &[1]), &cuts[k..], places)
}

/// How many links the first of the two parts has that the chain at a path is made of.
fn front_count(draft: &Draft, path: &[u32]) -> Option<usize> {
    let chain = draft.at(path)?;
    nesting(chain.op).map(|_| count(chain.op, chain.kids[0]))
}

/// Nests the chain at a path so that the first of its two parts has so many links.
fn split(draft: &mut Draft, path: &[u32], wanted: usize) -> Option<()> {
    let law = nesting(draft.at(path)?.op)?;
    let front = front_count(draft, path)?;
    if front > wanted {
        split(draft, &joined(path, &[0]), wanted)?;
        draft.forward(law, path)
    } else if front < wanted {
        split(draft, &joined(path, &[1]), wanted - front)?;
        draft.back(law, path)
    } else {
        Some(())
    }
}
