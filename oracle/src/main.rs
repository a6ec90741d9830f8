//! The programs written a second time from docs/ alone, by another method, and held against the proved
//! ones.
//!
//!     oracle judge < TRACE         what judge prints (on no: the edges)
//!     oracle rehearse < TRACE      what rehearse prints
//!     oracle compare BIN [COUNT] [FIRST]
//!                                  run BIN/judge and BIN/rehearse on the edge cases, on COUNT seeds from
//!                                  FIRST on, and on the schedules of the folder examples/schedules

mod generate;
mod hub;
mod judge;
mod programs;
mod trace;

use std::error::Error;
use std::io::{Read, Write};
use std::path::Path;
use std::process::{Command, ExitCode, Stdio};

/// What a program prints on an input.
fn run(program: &Path, input: &[u8]) -> Result<Vec<String>, Box<dyn Error>> {
    let mut child = Command::new(program).stdin(Stdio::piped()).stdout(Stdio::piped()).spawn()?;
    // a program may stop reading early, as at an input that is too long
    let _ = child.stdin.take().ok_or("no pipe")?.write_all(input);
    let out = child.wait_with_output()?;
    if !out.status.success() {
        return Err(format!("{} ended with {}", program.display(), out.status).into());
    }
    Ok(String::from_utf8(out.stdout)?.lines().map(str::to_string).collect())
}

type Check = fn(&[u8], &[String]) -> Result<(), (usize, String)>;

fn compare_one(bin: &Path, name: &str, input: &[u8]) -> Result<(), String> {
    let checks: [(&str, Check); 2] = [("judge", programs::check_judge), ("rehearse", programs::check_rehearse)];
    for (program, check) in checks {
        let printed = run(&bin.join(program), input).map_err(|e| format!("{name}: {e}"))?;
        if let Err((line, want)) = check(input, &printed) {
            let got = printed.get(line - 1).map_or("nothing", String::as_str);
            let text = String::from_utf8_lossy(input);
            return Err(format!("{name}: {program} differs at line {line}\n  prints {got}\n  wanted {want}\n{text}"));
        }
    }
    Ok(())
}

/// The verdict that a schedule of the corpus must have stands in VERDICTS beside it: `name,verdict`.
fn compare_schedules(bin: &Path, folder: &Path) -> Result<usize, String> {
    let table = std::fs::read_to_string(folder.join("VERDICTS")).map_err(|e| format!("{}: {e}", folder.display()))?;
    let mut count = 0;
    for row in table.lines() {
        let (name, verdict) = row.split_once(',').ok_or(format!("VERDICTS: {row}"))?;
        let input = std::fs::read(folder.join(name).with_extension("trace")).map_err(|e| format!("{name}: {e}"))?;
        compare_one(bin, name, &input)?;
        let printed = run(&bin.join("judge"), &input).map_err(|e| format!("{name}: {e}"))?;
        let got = printed.get(1).map_or("", |l| l.split(',').next().unwrap_or(""));
        if got != verdict {
            return Err(format!("{name}: the verdict is {got} and should be {verdict}"));
        }
        count += 1;
    }
    Ok(count)
}

fn compare(args: &[String]) -> Result<(), String> {
    let bin = Path::new(args.first().ok_or("compare wants the folder of the programs")?);
    let number = |k: usize, or: u64| args.get(k).map_or(Ok(or), |a| a.parse::<u64>().map_err(|e| e.to_string()));
    let (count, first) = (number(1, 4000)?, number(2, 1)?);
    let edge_cases = generate::edge_cases();
    for (name, input) in &edge_cases {
        compare_one(bin, name, input)?;
    }
    let schedules = compare_schedules(bin, Path::new("examples/schedules"))?;
    for seed in first..first + count {
        compare_one(bin, &format!("seed {seed}"), &generate::input(seed))?;
    }
    println!("oracle: {count} seeds, {} edge cases and {schedules} schedules agree", edge_cases.len());
    Ok(())
}

fn show(print: impl Fn(&[u8])) -> Result<(), String> {
    let mut input = Vec::new();
    std::io::stdin().read_to_end(&mut input).map_err(|e| e.to_string())?;
    print(&input);
    Ok(())
}

fn main() -> ExitCode {
    let args: Vec<String> = std::env::args().skip(1).collect();
    let done = match args.first().map(String::as_str) {
        Some("judge") => show(|input| println!("{:?}", trace::read(input).map(|acts| judge::judge(&acts)))),
        Some("rehearse") => show(|input| programs::rehearse(input).iter().for_each(|l| println!("{l}"))),
        Some("compare") => compare(&args[1..]),
        _ => Err("say judge, rehearse or compare".to_string()),
    };
    match done {
        Ok(()) => ExitCode::SUCCESS,
        Err(why) => {
            eprintln!("oracle: {why}");
            ExitCode::FAILURE
        }
    }
}
