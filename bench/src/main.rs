//! What the proved hub and judge cost beside ordinary Rust: both take the same lists in one process.
//!
//!     bench [WORDS]   the rows whose name has these words in it, or all; a judgement's begins with `judge`
//!     bench --trace   a trace of 1,024 lines, for the programs

mod loads;
mod plain_hub;
mod plain_judge;
mod proved;
mod request;

use loads::{Load, FIRST};
use request::{Reply, Request};
use std::hint::black_box;
use std::time::Instant;

const RUNS: usize = 101;
const SHORTEST_RUN: f64 = 100_000.0;

/// The nanoseconds that the work takes, done so many times.
fn time(work: &mut dyn FnMut(), times: usize) -> f64 {
    let start = Instant::now();
    for _ in 0..times {
        work();
    }
    start.elapsed().as_nanos() as f64 / times as f64
}

fn median(mut times: Vec<f64>) -> f64 {
    times.sort_by(f64::total_cmp);
    times[times.len() / 2]
}

/// The median time of each work; they take turns.
fn medians<const N: usize>(mut works: [&mut dyn FnMut(); N]) -> [f64; N] {
    let counts: Vec<usize> = works
        .iter_mut()
        .map(|work| (SHORTEST_RUN / time(*work, 3)).ceil().max(1.0) as usize)
        .collect();
    let mut times: [Vec<f64>; N] = std::array::from_fn(|_| Vec::new());
    for _ in 0..RUNS {
        for (k, work) in works.iter_mut().enumerate() {
            times[k].push(time(*work, counts[k]));
        }
    }
    times.map(median)
}

/// Both must give the same replies, and leave the same values in the items.
fn compare(name: &str, list: &[Request]) {
    let mut asked = list.to_vec();
    asked.extend((0..64).map(request::peek));
    let mut replies = vec![Reply::default(); asked.len()];
    let mut others = replies.clone();
    assert_eq!(
        proved::play(FIRST, &asked, &mut replies),
        asked.len(),
        "{name}"
    );
    assert_eq!(
        plain_hub::play(FIRST, &asked, &mut others),
        asked.len(),
        "{name}"
    );
    assert_eq!(replies, others, "{name}");
}

/// Nanoseconds for a call, proved and plain: what the whole list takes beyond the calls before.
fn hub_times(load: &Load) -> (f64, f64) {
    let mut all = load.before.clone();
    all.extend(&load.timed);
    compare(load.name, &all);
    let run = |play: fn(u32, &[Request], &mut [Reply]) -> usize,
               list: &[Request],
               replies: &mut [Reply]| {
        black_box(play(FIRST, black_box(list), replies));
    };
    let mut replies: [Vec<Reply>; 4] = std::array::from_fn(|_| vec![Reply::default(); all.len()]);
    let [a, b, c, d] = &mut replies;
    let [proved_all, plain_all, proved_before, plain_before] = medians([
        &mut || run(proved::play, &all, a),
        &mut || run(plain_hub::play, &all, b),
        &mut || run(proved::play, &load.before, c),
        &mut || run(plain_hub::play, &load.before, d),
    ]);
    let calls = load.timed.len() as f64;
    (
        (proved_all - proved_before) / calls,
        (plain_all - plain_before) / calls,
    )
}

/// Nanoseconds for a judgement, proved and plain, and its code.
fn judge_times(trace: &[Request]) -> (f64, f64, u32) {
    let (mut numbers, mut others) = ([0; 64], [0; 64]);
    let told = proved::judge(trace, &mut numbers);
    let other = plain_judge::judge_requests(trace, &mut others);
    assert_eq!(told.code, other.code);
    if told.code == 1 {
        assert!(plain_judge::is_cycle(trace, &numbers[..told.number]));
        assert!(plain_judge::is_cycle(trace, &others[..other.number]));
    } else {
        assert_eq!((told, numbers), (other, others));
    }
    let run = |judge: fn(&[Request], &mut [u32]) -> Reply, numbers: &mut [u32]| {
        black_box(judge(black_box(trace), numbers));
    };
    let [proved, plain] = medians([&mut || run(proved::judge, &mut numbers), &mut || {
        run(plain_judge::judge_requests, &mut others)
    }]);
    (proved, plain, told.code)
}

fn print_head(what: &str, size: &str) {
    println!(
        "{what:<29} {size:>6} {:>11} {:>11} {:>6} {:>7}",
        "proved, ns", "plain, ns", "ratio", "growth"
    );
}

/// A row; the growth is from the row of the size before.
fn print_row(name: &str, size: u32, proved: f64, plain: f64, before: Option<f64>) {
    let growth = before.map_or(String::new(), |before| format!("{:.1}", proved / before));
    let digits = if proved < 1000.0 { 1 } else { 0 };
    println!(
        "{name:<29} {size:>6} {proved:>11.digits$} {plain:>11.digits$} {:>6.1} {growth:>7}",
        proved / plain
    );
}

fn hub_rows(words: &str) {
    print_head("a call of the hub", "jobs");
    let sizes = [2, 8, 32];
    let loads = sizes.map(loads::loads);
    for k in 0..loads[0].len() {
        let mut before = None;
        for (size, load) in sizes.iter().zip(loads.iter().map(|loads| &loads[k])) {
            if load.name.contains(words) {
                let (proved, plain) = hub_times(load);
                print_row(load.name, *size, proved, plain, before);
                before = Some(proved);
            }
        }
    }
}

fn judge_rows(words: &str) {
    print_head("a judgement", "steps");
    for (few, one_by_one) in [(true, true), (true, false), (false, true), (false, false)] {
        let mut before = None;
        for steps in [64, 256, 1024] {
            let jobs = if few { 4 } else { (steps / 4).min(64) };
            let name = format!("{jobs} jobs, {}", if one_by_one { "yes" } else { "no" });
            if format!("judge {name}").contains(words) {
                let (proved, plain, code) = judge_times(&loads::trace(steps, jobs, one_by_one));
                assert_eq!(code, if one_by_one { 0 } else { 1 });
                print_row(&name, steps, proved, plain, before);
                before = Some(proved);
            }
        }
    }
    let mut refused = loads::trace(1024, 64, true);
    refused[0] = request::commit(FIRST);
    if "judge, refused at once".contains(words) {
        let (proved, plain, _) = judge_times(&refused);
        print_row("refused at the first step", 1024, proved, plain, None);
    }
}

fn main() {
    let words = std::env::args().nth(1).unwrap_or_default();
    if words == "--trace" {
        print!("{}", loads::text(&loads::trace(1024, 64, true)));
        return;
    }
    let judge_only = words.starts_with("judge");
    if !judge_only {
        hub_rows(&words);
    }
    if words.is_empty() {
        println!();
    }
    if words.is_empty() || judge_only {
        judge_rows(&words);
    }
}
