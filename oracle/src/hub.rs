//! The hub as a question about its whole history: docs/HUB.md. Nothing is kept but the history; who is
//! present, who holds an item and which edges there are is worked out anew for each call.

use crate::judge;
use crate::trace::Act;
use std::collections::BTreeSet;

const SLOTS: usize = 32;
const ITEMS: usize = 64;
const RETIRE_PLACES: usize = 32;

#[derive(Clone, Copy)]
enum Event {
    Opened(u32),
    Read(u32, u32),
    Wrote(u32, u32, u32),
    Committed(u32),
    Aborted(u32),
    Retired(u32),
}

#[derive(Default)]
pub struct History {
    events: Vec<Event>,
}

impl History {
    fn opened(&self) -> Vec<u32> {
        self.events.iter().filter_map(|e| match e { Event::Opened(j) => Some(*j), _ => None }).collect()
    }

    fn has(&self, test: impl Fn(&Event) -> bool) -> bool {
        self.events.iter().any(test)
    }

    fn aborted(&self, j: u32) -> bool {
        self.has(|e| matches!(e, Event::Aborted(i) if *i == j))
    }

    fn committed(&self, j: u32) -> bool {
        self.has(|e| matches!(e, Event::Committed(i) if *i == j))
    }

    fn retired(&self, j: u32) -> bool {
        self.has(|e| matches!(e, Event::Retired(i) if *i == j))
    }

    fn present(&self) -> BTreeSet<u32> {
        self.opened().into_iter().filter(|&j| !self.aborted(j) && !self.retired(j)).collect()
    }

    /// The job's last write to the item, if it is still held back.
    fn holding(&self, item: u32) -> Option<(u32, u32)> {
        self.events.iter().rev().find_map(|e| match *e {
            Event::Wrote(j, x, v) if x == item && !self.aborted(j) && !self.committed(j) => Some((j, v)),
            _ => None,
        })
    }

    /// What the commits have put into the store.
    fn stored(&self, item: u32) -> u32 {
        let mut value = 0;
        for (at, e) in self.events.iter().enumerate() {
            if let Event::Committed(j) = *e {
                for e in &self.events[..at] {
                    match *e {
                        Event::Wrote(i, x, v) if i == j && x == item => value = v,
                        _ => {}
                    }
                }
            }
        }
        value
    }

    /// The granted steps of all jobs that have not aborted, retired ones too.
    fn accesses(&self) -> Vec<(u32, u32, bool)> {
        let steps = self.events.iter().filter_map(|e| match *e {
            Event::Read(j, x) => Some((j, x, false)),
            Event::Wrote(j, x, _) => Some((j, x, true)),
            _ => None,
        });
        steps.filter(|a| !self.aborted(a.0)).collect()
    }

    /// Whether the whole history's graph has a cycle once the step is granted.
    fn would_close_cycle(&self, job: u32, item: u32, writes: bool) -> bool {
        let mut accesses = self.accesses();
        accesses.push((job, item, writes));
        judge::has_cycle(&judge::edges(&accesses))
    }

    /// The refusals that a read and a write share, with their detail.
    fn step(&mut self, job: u32, item: u32, writes: bool) -> Result<(), (u32, Option<u32>)> {
        self.running(job).map_err(|n| (n, None))?;
        if item as usize >= ITEMS {
            return Err((5, None));
        }
        match self.holding(item) {
            Some((holder, _)) if holder != job => return Err((6, Some(holder))),
            _ => {}
        }
        if self.would_close_cycle(job, item, writes) {
            self.events.push(Event::Aborted(job));
            return Err((7, None));
        }
        Ok(())
    }

    fn running(&self, job: u32) -> Result<(), u32> {
        match (self.present().contains(&job), self.committed(job)) {
            (false, _) => Err(3),
            (true, true) => Err(4),
            (true, false) => Ok(()),
        }
    }

    fn retire(&mut self) -> Vec<u32> {
        let mut numbers = Vec::new();
        while numbers.len() < RETIRE_PLACES {
            let present = self.present();
            let edges = judge::edges(&self.accesses());
            let free = |j: &&u32| self.committed(**j) && !present.iter().any(|i| edges.contains(&(*i, **j)));
            let Some(&j) = present.iter().find(free) else { break };
            numbers.push(j);
            self.events.push(Event::Retired(j));
        }
        numbers
    }

    fn open(&mut self) -> Result<u32, u32> {
        if self.present().len() == SLOTS {
            return Err(1);
        }
        let number = self.opened().len() as u32 + 1;
        self.events.push(Event::Opened(number));
        Ok(number)
    }

    /// One line of a trace as a call: the refusal and the detail, and the numbers that a retire wrote.
    pub fn call(&mut self, act: &Act) -> (u32, Option<u32>, Vec<u32>) {
        let plain = |r: Result<Option<u32>, (u32, Option<u32>)>| match r {
            Ok(detail) => (0, detail, Vec::new()),
            Err((number, detail)) => (number, detail, Vec::new()),
        };
        match *act {
            Act::Open(_) => plain(self.open().map(Some).map_err(|n| (n, None))),
            Act::Read(j, x, _) => plain(self.step(j, x, false).map(|()| {
                self.events.push(Event::Read(j, x));
                Some(self.holding(x).map_or_else(|| self.stored(x), |h| h.1))
            })),
            Act::Write(j, x, v) => plain(self.step(j, x, true).map(|()| {
                self.events.push(Event::Wrote(j, x, v));
                None
            })),
            Act::Commit(j) => plain(self.running(j).map_err(|n| (n, None)).map(|()| {
                self.events.push(Event::Committed(j));
                None
            })),
            Act::Abort(j) => plain(self.running(j).map_err(|n| (n, None)).map(|()| {
                self.events.push(Event::Aborted(j));
                None
            })),
            Act::Peek(x, _) => plain(if (x as usize) < ITEMS { Ok(Some(self.stored(x))) } else { Err((5, None)) }),
            Act::Retire => {
                let numbers = self.retire();
                (0, Some(numbers.len() as u32), numbers)
            }
        }
    }
}
