//! The hub in ordinary Rust: sets of slots as words, a table of 32 slots, 64 items.

use crate::request::{Act, Reply, Request};

const SLOTS: usize = 32;
const ITEMS: usize = 64;

#[derive(Clone, Copy, Debug, PartialEq, Eq)]
pub enum Refusal {
    TableFull,
    NumbersSpent,
    NotPresent,
    AlreadyCommitted,
    ItemNotServed,
    ItemHeld { holder: u32 },
    ClosesCycle,
}

#[derive(Clone, Copy, PartialEq, Eq)]
enum Status {
    Free,
    Running,
    Committed,
}

#[derive(Clone, Copy)]
struct Slot {
    job: u32,
    status: Status,
}

#[derive(Clone, Copy)]
struct Holding {
    job: u32,
    value: u32,
}

#[derive(Clone, Copy)]
struct Item {
    held: Option<Holding>,
    readers: u32,
    writers: u32,
}

pub struct Hub<'a> {
    values: &'a mut [u32],
    next: u64,
    slots: [Slot; SLOTS],
    /// For each slot the slots from which an edge leads to it.
    into: [u32; SLOTS],
    items: [Item; ITEMS],
}

impl<'a> Hub<'a> {
    pub fn new(values: &'a mut [u32], first: u32) -> Self {
        Hub {
            values,
            next: first.into(),
            slots: [Slot {
                job: 0,
                status: Status::Free,
            }; SLOTS],
            into: [0; SLOTS],
            items: [Item {
                held: None,
                readers: 0,
                writers: 0,
            }; ITEMS],
        }
    }

    fn running(&self, job: u32) -> Result<usize, Refusal> {
        let found = self
            .slots
            .iter()
            .position(|s| s.status != Status::Free && s.job == job);
        let slot = found.ok_or(Refusal::NotPresent)?;
        match self.slots[slot].status {
            Status::Committed => Err(Refusal::AlreadyCommitted),
            _ => Ok(slot),
        }
    }

    /// The slot of a job that may use the item as far as the edges allow it.
    fn admit(&self, job: u32, item: u32) -> Result<usize, Refusal> {
        let slot = self.running(job)?;
        if item as usize >= self.values.len().min(ITEMS) {
            return Err(Refusal::ItemNotServed);
        }
        match self.items[item as usize].held {
            Some(held) if held.job != job => Err(Refusal::ItemHeld { holder: held.job }),
            _ => Ok(slot),
        }
    }

    /// Draws edges from these slots to this one, unless one of them can be reached from it: the job is
    /// then aborted.
    fn draw(&mut self, slot: usize, from: u32) -> Result<(), Refusal> {
        let from = from & !(1 << slot);
        let mut seen = from;
        let mut todo = from;
        while todo != 0 {
            let at = todo.trailing_zeros() as usize;
            todo &= todo - 1;
            let fresh = self.into[at] & !seen;
            seen |= fresh;
            todo |= fresh;
        }
        if seen >> slot & 1 == 1 {
            self.remove(slot);
            return Err(Refusal::ClosesCycle);
        }
        self.into[slot] |= from;
        Ok(())
    }

    fn remove(&mut self, slot: usize) {
        let job = self.slots[slot].job;
        self.slots[slot].status = Status::Free;
        let others = !(1 << slot);
        self.into[slot] = 0;
        for row in &mut self.into {
            *row &= others;
        }
        for item in &mut self.items {
            item.readers &= others;
            item.writers &= others;
            if item.held.is_some_and(|held| held.job == job) {
                item.held = None;
            }
        }
    }

    pub fn open(&mut self) -> Result<u32, Refusal> {
        let free = self
            .slots
            .iter()
            .position(|s| s.status == Status::Free)
            .ok_or(Refusal::TableFull)?;
        let job = u32::try_from(self.next).map_err(|_| Refusal::NumbersSpent)?;
        self.slots[free] = Slot {
            job,
            status: Status::Running,
        };
        self.next += 1;
        Ok(job)
    }

    pub fn read(&mut self, job: u32, item: u32) -> Result<u32, Refusal> {
        let slot = self.admit(job, item)?;
        let at = item as usize;
        self.draw(slot, self.items[at].writers)?;
        self.items[at].readers |= 1 << slot;
        Ok(self.items[at]
            .held
            .map_or(self.values[at], |held| held.value))
    }

    pub fn write(&mut self, job: u32, item: u32, value: u32) -> Result<(), Refusal> {
        let slot = self.admit(job, item)?;
        let at = item as usize;
        self.draw(slot, self.items[at].writers | self.items[at].readers)?;
        self.items[at].writers |= 1 << slot;
        self.items[at].held = Some(Holding { job, value });
        Ok(())
    }

    pub fn commit(&mut self, job: u32) -> Result<(), Refusal> {
        let slot = self.running(job)?;
        for (item, value) in self.items.iter_mut().zip(self.values.iter_mut()) {
            if let Some(held) = item.held {
                if held.job == job {
                    *value = held.value;
                    item.held = None;
                }
            }
        }
        self.slots[slot].status = Status::Committed;
        Ok(())
    }

    pub fn abort(&mut self, job: u32) -> Result<(), Refusal> {
        let slot = self.running(job)?;
        self.remove(slot);
        Ok(())
    }

    pub fn retire(&mut self, list: &mut [u32]) -> usize {
        for (count, place) in list.iter_mut().enumerate() {
            let free = (0..SLOTS)
                .filter(|&s| self.slots[s].status == Status::Committed && self.into[s] == 0);
            let Some(slot) = free.min_by_key(|&s| self.slots[s].job) else {
                return count;
            };
            *place = self.slots[slot].job;
            self.remove(slot);
        }
        list.len()
    }

    pub fn peek(&self, item: u32) -> Result<u32, Refusal> {
        let served = self.values.len().min(ITEMS);
        self.values[..served]
            .get(item as usize)
            .copied()
            .ok_or(Refusal::ItemNotServed)
    }

    /// How many jobs are present.
    pub fn present(&self) -> usize {
        self.slots
            .iter()
            .filter(|s| s.status != Status::Free)
            .count()
    }

    /// Makes the call of an act.
    pub fn take(&mut self, act: Act) -> Reply {
        match act {
            Act::Open { .. } => reply(self.open()),
            Act::Read { job, item } => reply(self.read(job, item)),
            Act::Write { job, item, value } => reply(self.write(job, item, value).map(|()| 0)),
            Act::Commit { job } => reply(self.commit(job).map(|()| 0)),
            Act::Abort { job } => reply(self.abort(job).map(|()| 0)),
            Act::Peek { item } => reply(self.peek(item)),
            Act::Retire => {
                let mut list = [0; SLOTS];
                reply(Ok(self.retire(&mut list) as u32))
            }
        }
    }
}

fn reply(answer: Result<u32, Refusal>) -> Reply {
    match answer {
        Ok(number) => Reply {
            code: 0,
            number: number as usize,
        },
        Err(Refusal::TableFull) => Reply { code: 1, number: 0 },
        Err(Refusal::NumbersSpent) => Reply { code: 2, number: 0 },
        Err(Refusal::NotPresent) => Reply { code: 3, number: 0 },
        Err(Refusal::AlreadyCommitted) => Reply { code: 4, number: 0 },
        Err(Refusal::ItemNotServed) => Reply { code: 5, number: 0 },
        Err(Refusal::ItemHeld { holder }) => Reply {
            code: 6,
            number: holder as usize,
        },
        Err(Refusal::ClosesCycle) => Reply { code: 7, number: 0 },
    }
}

/// Makes the requests on a new hub over 64 items, and answers how many it took.
pub fn play(first: u32, requests: &[Request], replies: &mut [Reply]) -> usize {
    let mut values = [0; ITEMS];
    let mut hub = Hub::new(&mut values, first);
    for (at, (request, reply)) in requests.iter().zip(replies.iter_mut()).enumerate() {
        let Some(act) = request.act() else {
            return at;
        };
        *reply = hub.take(act);
    }
    requests.len().min(replies.len())
}
