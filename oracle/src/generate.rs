//! Inputs by seed: lives of a hub, well-formed traces, damaged traces, and edge cases.

use crate::trace::{self, Act};

/// A small random generator (splitmix64), so that a seed gives the same input everywhere.
pub struct Random(u64);

impl Random {
    pub fn new(seed: u64) -> Self {
        Random(seed)
    }

    fn next(&mut self) -> u64 {
        self.0 = self.0.wrapping_add(0x9E37_79B9_7F4A_7C15);
        let mut z = self.0;
        z = (z ^ (z >> 30)).wrapping_mul(0xBF58_476D_1CE4_E5B9);
        z = (z ^ (z >> 27)).wrapping_mul(0x94D0_49BB_1331_11EB);
        z ^ (z >> 31)
    }

    fn below(&mut self, n: u64) -> u64 {
        self.next() % n
    }

    fn pick<T: Copy>(&mut self, from: &[T]) -> T {
        from[self.below(from.len() as u64) as usize]
    }
}

fn item(r: &mut Random, items: u64) -> u32 {
    if r.below(40) == 0 { r.below(64) as u32 } else { r.below(items) as u32 }
}

/// Calls on a hub: jobs are opened, step on few items so that they meet, end, and are retired.
fn life(r: &mut Random) -> Vec<Act> {
    let length = [12, 30, 60, 150][r.below(4) as usize];
    let items = 1 + r.below(6);
    let most = if r.below(5) == 0 { 40 } else { 6 };
    let crowd = 2 + r.below(most);
    let mut opened: u64 = 0;
    let mut acts = Vec::new();
    for _ in 0..length {
        // mostly a job opened lately, now and then one that never was
        let job = if r.below(30) == 0 {
            r.below(100) as u32
        } else {
            (opened.saturating_sub(r.below(crowd))) as u32
        };
        let value = r.below(1000) as u32;
        let x = item(r, items);
        acts.push(match r.below(20) {
            0..=3 => { opened += 1; Act::Open(r.below(9) as u32) }
            4..=8 => Act::Read(job, x, value),
            9..=13 => Act::Write(job, x, value),
            14..=16 => Act::Commit(job),
            17 => Act::Abort(job),
            18 => Act::Retire,
            _ => Act::Peek(x, value),
        });
    }
    acts
}

/// A crowd of jobs that stay, so that the table fills.
fn full_table(r: &mut Random) -> Vec<Act> {
    let mut acts = Vec::new();
    for _ in 0..(30 + r.below(6)) {
        acts.push(Act::Open(0));
    }
    for _ in 0..r.below(60) {
        let job = 1 + r.below(36) as u32;
        acts.push(match r.below(6) {
            0 => Act::Open(0),
            1 => Act::Commit(job),
            2 => Act::Abort(job),
            3 => Act::Retire,
            4 => Act::Read(job, r.below(40) as u32, 0),
            _ => Act::Write(job, r.below(40) as u32, r.below(9) as u32),
        });
    }
    acts
}

/// A trace in which every step is in its turn, but for now and then one.
fn in_turn(r: &mut Random) -> Vec<Act> {
    let jobs = [2, 3, 5, 9, 20, 64, 65, 70][r.below(8) as usize];
    let items = 1 + r.below(8);
    let length = 4 + r.below(4 * jobs + 20);
    let (mut open, mut taken): (Vec<u32>, Vec<u32>) = (Vec::new(), Vec::new());
    let mut acts = Vec::new();
    for _ in 0..length {
        let few = (taken.len() as u64) < jobs;
        if open.is_empty() || (few && r.below(4) == 0) {
            if !few {
                break;
            }
            let j = if r.below(50) == 0 { u32::MAX - r.below(9) as u32 } else { r.below(400) as u32 };
            if !taken.contains(&j) || r.below(20) == 0 {
                taken.push(j);
                open.push(j);
                acts.push(Act::Open(j));
            }
            continue;
        }
        let j = r.pick(&open);
        let (x, v) = (item(r, items), r.below(100) as u32);
        match r.below(16) {
            0..=5 => acts.push(Act::Read(j, x, v)),
            6..=11 => acts.push(Act::Write(j, x, v)),
            12 => acts.push(Act::Peek(x, v)),
            13 => acts.push(Act::Retire),
            n => {
                if r.below(60) != 0 {
                    open.retain(|&i| i != j);
                }
                acts.push(if n == 14 { Act::Commit(j) } else { Act::Abort(j) });
            }
        }
    }
    acts
}

/// A few bytes of a good trace changed, lost or added.
fn damaged(r: &mut Random) -> Vec<u8> {
    let acts = if r.below(2) == 0 { life(r) } else { in_turn(r) };
    let mut bytes = trace::write(&acts);
    bytes.truncate(400);
    for _ in 0..=r.below(3) {
        if bytes.is_empty() {
            break;
        }
        let at = r.below(bytes.len() as u64) as usize;
        let new = r.pick(b"0,\n9ORWCAPTx -\xff\x00\r4");
        match r.below(3) {
            0 => bytes[at] = new,
            1 => { bytes.remove(at); }
            _ => bytes.insert(at, new),
        }
    }
    bytes
}

/// Lines with one field that is near a limit or no number.
fn near_limits(r: &mut Random) -> Vec<u8> {
    let fields = ["", "0", "00", "01", "1", "63", "64", "063", "4294967295", "4294967296", "42949672950",
        "99999999999999999999999999", "99999999999999999999999999x", "1 ", "-1", "+1", "a", "O"];
    let kinds = ["O", "R", "W", "C", "A", "P", "T", "", "o", "OO", "Q"];
    let mut bytes = Vec::new();
    for _ in 0..=r.below(3) {
        let mut line = vec![r.pick(&kinds)];
        for _ in 0..(if r.below(6) == 0 { r.below(6) } else { 3 }) {
            line.push(if r.below(3) == 0 { r.pick(&fields) } else { r.pick(&["", "1"]) });
        }
        bytes.extend_from_slice(line.join(",").as_bytes());
        if r.below(12) != 0 {
            bytes.push(b'\n');
        }
    }
    bytes
}

/// The input of a seed.
pub fn input(seed: u64) -> Vec<u8> {
    let mut r = Random::new(seed);
    match r.below(10) {
        0..=3 => trace::write(&life(&mut r)),
        4 => trace::write(&full_table(&mut r)),
        5..=7 => trace::write(&in_turn(&mut r)),
        8 => damaged(&mut r),
        _ => near_limits(&mut r),
    }
}

fn repeated(line: &str, times: usize) -> Vec<u8> {
    line.repeat(times).into_bytes()
}

/// Inputs at the limits of the programs, with what each shows.
pub fn edge_cases() -> Vec<(&'static str, Vec<u8>)> {
    let opens = |n: u32| (1..=n).map(Act::Open).collect::<Vec<_>>();
    let mut long_chain = opens(64);
    for j in 1..=63 {
        long_chain.push(Act::Write(j, j - 1, 0));
        long_chain.push(Act::Read(j + 1, j - 1, 0));
    }
    let mut long_ring = long_chain.clone();
    long_ring.push(Act::Write(64, 63, 0));
    long_ring.push(Act::Read(1, 63, 0));
    let mut padded = repeated("T,,,\n", 1000);
    padded.extend_from_slice(&vec![b'x'; 32_768 - padded.len()]);
    let mut too_long = padded.clone();
    too_long.push(b'\n');
    let mut last_line_bad = repeated("T,,,\n", 1024);
    last_line_bad.extend_from_slice(b"T,,\n");
    let mut full_then_unfinished = repeated("T,,,\n", 1024);
    full_then_unfinished.extend_from_slice(b"T,,,");
    let mut busy = vec![Act::Open(1), Act::Open(2)];
    busy.extend((0..1022).map(|k| if k % 3 == 0 { Act::Write(1, 0, k) } else { Act::Read(1 + k % 2, k % 4, 0) }));
    vec![
        ("an empty input", Vec::new()),
        ("a lone line end", b"\n".to_vec()),
        ("a line without its end", b"T,,,".to_vec()),
        ("as many steps as there is place for", repeated("T,,,\n", 1024)),
        ("one step more", repeated("T,,,\n", 1025)),
        ("a faulty line where the list is full", last_line_bad),
        ("an unfinished line where the list is full", full_then_unfinished),
        ("as many bytes as are taken", padded),
        ("one byte more", too_long),
        ("64 jobs opened", trace::write(&opens(64))),
        ("65 jobs opened", trace::write(&opens(65))),
        ("a number opened again after 64", trace::write(&[opens(64), vec![Act::Open(7)]].concat())),
        ("a chain of 64 jobs", trace::write(&long_chain)),
        ("a cycle of 64 jobs", trace::write(&long_ring)),
        ("1,024 steps of two jobs", trace::write(&busy)),
        ("bytes that are no text", vec![0xff, 0xfe, b',', 0, b',', b',', b'\n']),
    ]
}
