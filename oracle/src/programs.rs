//! What the two programs print: docs/PROGRAMS.md.

use crate::hub::History;
use crate::judge::{is_cycle, judge, Judged};
use crate::trace;

fn detail(n: Option<u32>) -> String {
    n.map_or(String::new(), |n| n.to_string())
}

/// What `rehearse` prints.
pub fn rehearse(input: &[u8]) -> Vec<String> {
    let mut lines = vec!["line,answer,detail".to_string()];
    let acts = match trace::read(input) {
        Ok(acts) => acts,
        Err(r) => {
            lines.push(format!("{},{},{}", r.line, r.number, detail(r.cause)));
            return lines;
        }
    };
    let mut history = History::default();
    for (at, act) in acts.iter().enumerate() {
        let (answer, told, numbers) = history.call(act);
        lines.push(format!("{},{},{}", at + 1, answer, detail(told)));
        lines.extend(numbers.iter().map(|n| format!("{},T,{n}", at + 1)));
    }
    lines
}

/// Whether `printed` is what `judge` may print; else the line, from 1, at which it goes wrong and why.
pub fn check_judge(input: &[u8], printed: &[String]) -> Result<(), (usize, String)> {
    let mut want = vec!["verdict,count".to_string()];
    match trace::read(input).map_err(|r| r.number).map(|acts| judge(&acts)) {
        Err(number) | Ok(Judged::Refused(number)) => want.push(format!("refused,{number}")),
        Ok(Judged::Yes(order)) => {
            want.push(format!("yes,{}", order.len()));
            want.extend(order.iter().map(u32::to_string));
        }
        Ok(Judged::No(edges)) => {
            let numbers: Vec<u32> = printed.iter().skip(2).filter_map(|l| l.parse().ok()).collect();
            if !is_cycle(&numbers, &edges) {
                return Err((2, format!("no, with a cycle of the edges {edges:?}")));
            }
            want.push(format!("no,{}", numbers.len()));
            want.extend(numbers.iter().map(u32::to_string));
        }
    }
    same(&want, printed)
}

/// Where two lists of lines part.
pub fn same(want: &[String], printed: &[String]) -> Result<(), (usize, String)> {
    let most = want.len().max(printed.len());
    match (0..most).find(|&k| want.get(k) != printed.get(k)) {
        None => Ok(()),
        Some(k) => Err((k + 1, want.get(k).cloned().unwrap_or_else(|| "nothing more".to_string()))),
    }
}

pub fn check_rehearse(input: &[u8], printed: &[String]) -> Result<(), (usize, String)> {
    same(&rehearse(input), printed)
}
