//! What both sides take and answer.

#[repr(C)]
#[derive(Clone, Copy, Debug, PartialEq, Eq)]
pub struct Request {
    pub kind: u32,
    pub job: u32,
    pub item: u32,
    pub value: u32,
}

#[repr(C)]
#[derive(Clone, Copy, Debug, Default, PartialEq, Eq)]
pub struct Reply {
    pub code: u32,
    pub number: usize,
}

const fn request(kind: u32, job: u32, item: u32, value: u32) -> Request {
    Request {
        kind,
        job,
        item,
        value,
    }
}

pub const fn open(job: u32) -> Request {
    request(0, job, 0, 0)
}

pub const fn read(job: u32, item: u32) -> Request {
    request(1, job, item, 0)
}

pub const fn write(job: u32, item: u32, value: u32) -> Request {
    request(2, job, item, value)
}

pub const fn commit(job: u32) -> Request {
    request(3, job, 0, 0)
}

pub const fn abort(job: u32) -> Request {
    request(4, job, 0, 0)
}

pub const fn peek(item: u32) -> Request {
    request(5, 0, item, 0)
}

pub const fn retire() -> Request {
    request(6, 0, 0, 0)
}

#[derive(Clone, Copy, Debug, PartialEq, Eq)]
pub enum Act {
    Open { job: u32 },
    Read { job: u32, item: u32 },
    Write { job: u32, item: u32, value: u32 },
    Commit { job: u32 },
    Abort { job: u32 },
    Peek { item: u32 },
    Retire,
}

impl Request {
    /// The act of a request, if its kind is known.
    pub fn act(&self) -> Option<Act> {
        let Request {
            job, item, value, ..
        } = *self;
        Some(match self.kind {
            0 => Act::Open { job },
            1 => Act::Read { job, item },
            2 => Act::Write { job, item, value },
            3 => Act::Commit { job },
            4 => Act::Abort { job },
            5 => Act::Peek { item },
            6 => Act::Retire,
            _ => return None,
        })
    }
}
