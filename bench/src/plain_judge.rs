//! The judge in ordinary Rust: sets of jobs as words, at most 64 jobs.

use crate::request::{Act, Reply, Request};
use std::collections::HashMap;

const JOBS: usize = 64;
const MOST_STEPS: usize = 1024;

pub enum Verdict {
    Yes(usize),
    No(usize),
}

pub enum Refusal {
    OutOfTurn { index: usize },
    TooManyJobs,
    ListTooShort,
}

#[derive(Clone, Copy, Default)]
struct Users {
    readers: u64,
    writers: u64,
}

struct Ledger {
    numbers: [u32; JOBS],
    count: usize,
    running: u64,
    kept: u64,
    /// For each job the jobs from which an edge leads to it.
    into: [u64; JOBS],
    users: [Users; 64],
    further: HashMap<u32, Users>,
}

impl Ledger {
    fn find(&self, job: u32) -> Option<usize> {
        self.numbers[..self.count].iter().position(|&n| n == job)
    }

    fn find_running(&self, job: u32) -> Option<usize> {
        self.find(job).filter(|&node| self.running >> node & 1 == 1)
    }

    fn users(&mut self, item: u32) -> &mut Users {
        match self.users.get_mut(item as usize) {
            Some(users) => users,
            None => self.further.entry(item).or_default(),
        }
    }

    fn open(&mut self, job: u32, index: usize) -> Result<(), Refusal> {
        if self.find(job).is_some() {
            return Err(Refusal::OutOfTurn { index });
        }
        if self.count == JOBS {
            return Err(Refusal::TooManyJobs);
        }
        self.numbers[self.count] = job;
        self.running |= 1 << self.count;
        self.kept |= 1 << self.count;
        self.count += 1;
        Ok(())
    }

    fn take(&mut self, act: Act, index: usize) -> Result<(), Refusal> {
        let out_of_turn = Refusal::OutOfTurn { index };
        match act {
            Act::Open { job } => self.open(job, index)?,
            Act::Read { job, item } => {
                let node = self.find_running(job).ok_or(out_of_turn)?;
                let users = self.users(item);
                users.readers |= 1 << node;
                let from = users.writers;
                self.into[node] |= from & !(1 << node);
            }
            Act::Write { job, item, .. } => {
                let node = self.find_running(job).ok_or(out_of_turn)?;
                let users = self.users(item);
                users.writers |= 1 << node;
                let from = users.writers | users.readers;
                self.into[node] |= from & !(1 << node);
            }
            Act::Commit { job } => {
                let node = self.find_running(job).ok_or(out_of_turn)?;
                self.running &= !(1 << node);
            }
            Act::Abort { job } => {
                let node = self.find_running(job).ok_or(out_of_turn)?;
                self.running &= !(1 << node);
                self.kept &= !(1 << node);
            }
            Act::Peek { .. } | Act::Retire => {}
        }
        Ok(())
    }
}

fn read(steps: &[Act]) -> Result<Ledger, Refusal> {
    let mut ledger = Ledger {
        numbers: [0; JOBS],
        count: 0,
        running: 0,
        kept: 0,
        into: [0; JOBS],
        users: [Users::default(); 64],
        further: HashMap::new(),
    };
    for (index, &act) in steps.iter().enumerate() {
        ledger.take(act, index)?;
    }
    Ok(ledger)
}

/// The nodes of a set, rising.
fn nodes(mut set: u64) -> impl Iterator<Item = usize> {
    std::iter::from_fn(move || {
        let node = (set != 0).then(|| set.trailing_zeros() as usize)?;
        set &= set - 1;
        Some(node)
    })
}

/// A cycle among nodes each of which has an edge from another of them: walk back until a node comes again.
fn cycle(into: &[u64; JOBS], left: u64, way: &mut [usize; JOBS]) -> usize {
    let mut place = [JOBS; JOBS];
    let mut node = left.trailing_zeros() as usize;
    let mut count = 0;
    while place[node] == JOBS {
        place[node] = count;
        way[count] = node;
        count += 1;
        node = (into[node] & left).trailing_zeros() as usize;
    }
    way[..count].reverse();
    count - place[node]
}

pub fn judge(steps: &[Act], numbers: &mut [u32]) -> Result<Verdict, Refusal> {
    let ledger = read(steps)?;
    if numbers.len() < ledger.count {
        return Err(Refusal::ListTooShort);
    }
    let mut left = ledger.kept;
    let mut order = [0; JOBS];
    let mut count = 0;
    while left != 0 {
        let free = nodes(left).filter(|&node| ledger.into[node] & left == 0);
        let Some(node) = free.min_by_key(|&node| ledger.numbers[node]) else {
            let length = cycle(&ledger.into, left, &mut order);
            for (number, &node) in numbers.iter_mut().zip(&order[..length]) {
                *number = ledger.numbers[node];
            }
            return Ok(Verdict::No(length));
        };
        order[count] = node;
        count += 1;
        left &= !(1 << node);
    }
    for (number, &node) in numbers.iter_mut().zip(&order[..count]) {
        *number = ledger.numbers[node];
    }
    Ok(Verdict::Yes(count))
}

/// Judges the acts of the requests.
pub fn judge_requests(requests: &[Request], numbers: &mut [u32]) -> Reply {
    let mut steps = [Act::Retire; MOST_STEPS];
    if requests.len() > MOST_STEPS {
        return Reply {
            code: 13,
            number: MOST_STEPS,
        };
    }
    for (index, (step, request)) in steps.iter_mut().zip(requests).enumerate() {
        match request.act() {
            Some(act) => *step = act,
            None => {
                return Reply {
                    code: 9,
                    number: index,
                }
            }
        }
    }
    match judge(&steps[..requests.len()], numbers) {
        Ok(Verdict::Yes(number)) => Reply { code: 0, number },
        Ok(Verdict::No(number)) => Reply { code: 1, number },
        Err(Refusal::OutOfTurn { index }) => Reply {
            code: 10,
            number: index,
        },
        Err(Refusal::TooManyJobs) => Reply {
            code: 11,
            number: 0,
        },
        Err(Refusal::ListTooShort) => Reply {
            code: 12,
            number: 0,
        },
    }
}

/// Whether the numbers are a cycle of the acts' graph.
pub fn is_cycle(requests: &[Request], numbers: &[u32]) -> bool {
    let steps: Vec<Act> = requests.iter().filter_map(Request::act).collect();
    let Ok(ledger) = read(&steps) else {
        return false;
    };
    let edge = |from: u32, to: u32| match (ledger.find(from), ledger.find(to)) {
        (Some(from), Some(to)) => {
            (ledger.into[to] & ledger.kept) >> from & 1 == 1 && ledger.kept >> to & 1 == 1
        }
        _ => false,
    };
    !numbers.is_empty()
        && (0..numbers.len()).all(|k| edge(numbers[k], numbers[(k + 1) % numbers.len()]))
}
