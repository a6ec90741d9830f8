//! The judge by brute force over all pairs of accesses: docs/JUDGE.md.

use crate::trace::Act;
use std::collections::{BTreeMap, BTreeSet};

#[derive(Debug, PartialEq, Eq)]
pub enum Judged {
    /// The order in which the jobs could have run.
    Yes(Vec<u32>),
    /// The edges of a graph that has a cycle.
    No(BTreeSet<(u32, u32)>),
    Refused(u32),
}

#[derive(Clone, Copy, PartialEq)]
enum Fate {
    Open,
    Committed,
    Aborted,
}

/// What became of each job, or the refusal.
fn fates(acts: &[Act]) -> Result<BTreeMap<u32, Fate>, u32> {
    let mut fates = BTreeMap::new();
    for act in acts {
        match *act {
            Act::Open(j) => {
                if fates.contains_key(&j) {
                    return Err(10);
                }
                if fates.len() == 64 {
                    return Err(11);
                }
                fates.insert(j, Fate::Open);
            }
            Act::Read(j, ..) | Act::Write(j, ..) | Act::Commit(j) | Act::Abort(j) => {
                if fates.get(&j) != Some(&Fate::Open) {
                    return Err(10);
                }
                match act {
                    Act::Commit(_) => fates.insert(j, Fate::Committed),
                    Act::Abort(_) => fates.insert(j, Fate::Aborted),
                    _ => None,
                };
            }
            Act::Peek(..) | Act::Retire => {}
        }
    }
    Ok(fates)
}

/// Job, item and whether it is a write.
pub fn access(act: &Act) -> Option<(u32, u32, bool)> {
    match *act {
        Act::Read(j, x, _) => Some((j, x, false)),
        Act::Write(j, x, _) => Some((j, x, true)),
        _ => None,
    }
}

/// An edge for each pair of conflicting accesses, the earlier job first.
pub fn edges(accesses: &[(u32, u32, bool)]) -> BTreeSet<(u32, u32)> {
    let mut edges = BTreeSet::new();
    for (at, &(i, x, w)) in accesses.iter().enumerate() {
        for &(j, y, v) in &accesses[at + 1..] {
            if i != j && x == y && (w || v) {
                edges.insert((i, j));
            }
        }
    }
    edges
}

/// The jobs in the judge's order, as far as it gets.
fn order(jobs: &BTreeSet<u32>, edges: &BTreeSet<(u32, u32)>) -> Vec<u32> {
    let mut left = jobs.clone();
    let mut order = Vec::new();
    while let Some(&j) = left.iter().find(|&&j| !left.iter().any(|&i| edges.contains(&(i, j)))) {
        left.remove(&j);
        order.push(j);
    }
    order
}

/// Whether following edges leads from a job back to itself, by depth first search.
pub fn has_cycle(edges: &BTreeSet<(u32, u32)>) -> bool {
    let starts: BTreeSet<u32> = edges.iter().map(|e| e.0).collect();
    starts.into_iter().any(|start| reaches(edges, start, start, &mut BTreeSet::new()))
}

fn reaches(edges: &BTreeSet<(u32, u32)>, from: u32, goal: u32, seen: &mut BTreeSet<u32>) -> bool {
    edges.range((from, 0)..=(from, u32::MAX)).any(|&(_, to)| {
        to == goal || (seen.insert(to) && reaches(edges, to, goal, seen))
    })
}

pub fn judge(acts: &[Act]) -> Judged {
    let fates = match fates(acts) {
        Ok(fates) => fates,
        Err(number) => return Judged::Refused(number),
    };
    let kept = |j: &u32| fates[j] != Fate::Aborted;
    let accesses: Vec<_> = acts.iter().filter_map(access).filter(|a| kept(&a.0)).collect();
    let edges = edges(&accesses);
    if has_cycle(&edges) {
        return Judged::No(edges);
    }
    let jobs: BTreeSet<u32> = fates.keys().copied().filter(kept).collect();
    let order = order(&jobs, &edges);
    assert_eq!(order.len(), jobs.len(), "without a cycle every job has its turn");
    Judged::Yes(order)
}

/// Whether the numbers are different jobs, and following the edges from each to its neighbour leads round.
pub fn is_cycle(numbers: &[u32], edges: &BTreeSet<(u32, u32)>) -> bool {
    let different: BTreeSet<_> = numbers.iter().collect();
    let next = numbers.iter().cycle().skip(1);
    numbers.len() > 1
        && different.len() == numbers.len()
        && numbers.iter().zip(next).all(|(&i, &j)| edges.contains(&(i, j)))
}
