//! Lists of requests.

use crate::plain_hub::Hub;
use crate::request::*;

/// Calls that are timed, and those before them that bring the hub to where they begin.
pub struct Load {
    pub name: &'static str,
    pub before: Vec<Request>,
    pub timed: Vec<Request>,
}

/// The number of the first job.
pub const FIRST: u32 = 1;
const TIMED: usize = 1024;
const MIXED: usize = 4096;

/// Numbers that look random, the same in every run.
struct Dice(u64);

impl Dice {
    fn new(seed: u64) -> Self {
        Dice(seed.wrapping_mul(0x9E37_79B9_7F4A_7C15) | 1)
    }

    fn below(&mut self, n: u32) -> u32 {
        self.0 ^= self.0 << 13;
        self.0 ^= self.0 >> 7;
        self.0 ^= self.0 << 17;
        (self.0 >> 33) as u32 % n
    }
}

fn opens(jobs: u32) -> Vec<Request> {
    (FIRST..FIRST + jobs).map(open).collect()
}

/// Jobs from this one on: each reads what the one before it wrote, writes an item and commits.
fn chain(first: u32, jobs: u32) -> Vec<Request> {
    let mut list: Vec<Request> = (first..first + jobs).map(open).collect();
    for item in 0..jobs {
        if item > 0 {
            list.push(read(first + item, item - 1));
        }
        list.push(write(first + item, item, 7));
        list.push(commit(first + item));
    }
    list
}

fn repeat(round: impl Fn(u32) -> Vec<Request>) -> Vec<Request> {
    (0..).flat_map(round).take(TIMED).collect()
}

/// The loads with so many jobs present, two at least.
pub fn loads(jobs: u32) -> Vec<Load> {
    let last = FIRST + jobs - 1;
    let mut list = Vec::new();
    let mut add = |name, before, timed| {
        list.push(Load {
            name,
            before,
            timed,
        })
    };

    add("peek", opens(jobs), repeat(|k| vec![peek(k % 64)]));
    add(
        "abort of an absent job",
        opens(jobs),
        repeat(|_| vec![abort(0)]),
    );
    let mut before = opens(jobs);
    before.push(write(FIRST, 0, 7));
    add(
        "read of a held item",
        before,
        repeat(|_| vec![read(last, 0)]),
    );
    add(
        "read, no edges",
        opens(jobs),
        repeat(|k| vec![read(FIRST + k % jobs, k * 7 % 64)]),
    );
    // each job writes items of its own
    let own = |k: u32| k % jobs + k / jobs % (64 / jobs) * jobs;
    add(
        "write, no edges",
        opens(jobs),
        repeat(|k| vec![write(FIRST + k % jobs, own(k), 7)]),
    );
    // the last job reads what the others, a chain, wrote
    let mut before = chain(FIRST, jobs - 1);
    before.push(open(0));
    add(
        "read behind a chain",
        before,
        repeat(|k| vec![read(last, k % (jobs - 1))]),
    );
    // the first job read what the others, a chain, then overwrote; now it reads what nobody wrote
    let mut before = vec![open(0), read(FIRST, 0)];
    before.extend(chain(FIRST + 1, jobs - 1));
    add(
        "read before a chain",
        before,
        repeat(|k| vec![read(FIRST, 32 + k % 32)]),
    );
    add(
        "open, abort",
        opens(jobs - 1),
        repeat(|k| vec![open(0), abort(last + k)]),
    );
    let round = |k| {
        vec![
            open(0),
            write(last + k, k % 64, 7),
            commit(last + k),
            retire(),
        ]
    };
    add(
        "open, write, commit, retire",
        opens(jobs - 1),
        repeat(round),
    );
    // one job reads an item, another overwrites it and commits, and the next read of the first is refused
    let round = |k| {
        let (job, other) = (last - 1 + 2 * k, last + 2 * k);
        vec![
            open(0),
            open(0),
            read(job, 0),
            write(other, 0, k),
            commit(other),
            read(job, 0),
            retire(),
        ]
    };
    add("a conflict, with its jobs", opens(jobs - 2), repeat(round));
    add("mixed", vec![], mixed(jobs));
    list
}

/// What a client asks that keeps so many jobs present.
fn mixed(jobs: u32) -> Vec<Request> {
    let mut values = [0; 64];
    let mut hub = Hub::new(&mut values, FIRST);
    let mut dice = Dice::new(jobs.into());
    let mut running: Vec<u32> = Vec::new();
    let mut list = Vec::new();
    while list.len() < MIXED {
        let request = if hub.present() < jobs as usize {
            open(0)
        } else if running.is_empty() {
            retire()
        } else {
            let job = running[dice.below(running.len() as u32) as usize];
            match dice.below(100) {
                0..=54 => read(job, dice.below(64)),
                55..=74 => write(job, dice.below(64), dice.below(1000)),
                75..=84 => commit(job),
                85..=86 => abort(job),
                87..=94 => peek(dice.below(64)),
                _ => retire(),
            }
        };
        let act = request.act().expect("a known kind");
        let reply = hub.take(act);
        match act {
            Act::Open { .. } if reply.code == 0 => running.push(reply.number as u32),
            Act::Commit { job } | Act::Abort { job } => running.retain(|&j| j != job),
            Act::Read { job, .. } | Act::Write { job, .. } if reply.code == 7 => {
                running.retain(|&j| j != job)
            }
            _ => {}
        }
        list.push(request);
    }
    list
}

/// A trace of so many steps by so many jobs, which all commit. They run one after another, or in any order
/// over few items.
pub fn trace(steps: u32, jobs: u32, one_by_one: bool) -> Vec<Request> {
    let mut dice = Dice::new(u64::from(steps) << 8 | u64::from(jobs));
    let items = if one_by_one { 64 } else { 8 };
    let uses = steps - 2 * jobs;
    let mut list = opens(jobs);
    for k in 0..uses {
        let job = FIRST
            + if one_by_one {
                k * jobs / uses
            } else {
                dice.below(jobs)
            };
        let item = dice.below(items);
        list.push(if dice.below(3) == 0 {
            write(job, item, k)
        } else {
            read(job, item)
        });
    }
    list.extend((FIRST..FIRST + jobs).map(commit));
    list
}

/// The text of a trace.
pub fn text(requests: &[Request]) -> String {
    let line = |request: &Request| match request.act().expect("a known kind") {
        Act::Open { job } => format!("O,{job},,\n"),
        Act::Read { job, item } => format!("R,{job},{item},0\n"),
        Act::Write { job, item, value } => format!("W,{job},{item},{value}\n"),
        Act::Commit { job } => format!("C,{job},,\n"),
        Act::Abort { job } => format!("A,{job},,\n"),
        Act::Peek { item } => format!("P,,{item},0\n"),
        Act::Retire => "T,,,\n".to_string(),
    };
    requests.iter().map(line).collect()
}
