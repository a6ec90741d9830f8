//! Traces, read by splitting text: docs/TRACES.md.

/// The most bytes that a program takes.
pub const INPUT_LIMIT: usize = 32_768;
/// The most steps that a program takes.
pub const STEP_LIMIT: usize = 1_024;

#[derive(Clone, Copy, Debug, PartialEq, Eq)]
pub enum Act {
    Open(u32),
    Read(u32, u32, u32),
    Write(u32, u32, u32),
    Commit(u32),
    Abort(u32),
    Peek(u32, u32),
    Retire,
}

/// Why a trace is refused: the line, the refusal's number and, for 9, the cause.
#[derive(Clone, Copy, Debug, PartialEq, Eq)]
pub struct Refused {
    pub line: usize,
    pub number: u32,
    pub cause: Option<u32>,
}

/// A field that the kind leaves empty (`None`) or that must hold a number up to the limit.
fn field(text: &[u8], limit: Option<u64>) -> Result<u32, u32> {
    let Some(limit) = limit else {
        return if text.is_empty() { Ok(0) } else { Err(8) };
    };
    if text.is_empty() {
        return Err(7);
    }
    let leading_zero = text.len() > 1 && text[0] == b'0';
    if leading_zero || !text.iter().all(u8::is_ascii_digit) {
        return Err(6);
    }
    let digits = std::str::from_utf8(text).expect("digits are text");
    match digits.parse::<u64>() {
        Ok(n) if n <= limit => Ok(n as u32),
        _ => Err(5),
    }
}

fn line(text: &[u8]) -> Result<Act, u32> {
    let fields: Vec<&[u8]> = text.split(|b| *b == b',').collect();
    if fields.len() < 4 {
        return Err(2);
    }
    if fields.len() > 4 {
        return Err(3);
    }
    let number = Some(u64::from(u32::MAX));
    let item = Some(63);
    let limits = match fields[0] {
        b"O" | b"C" | b"A" => [number, None, None],
        b"R" | b"W" => [number, item, number],
        b"P" => [None, item, number],
        b"T" => [None, None, None],
        _ => return Err(4),
    };
    let mut n = [0; 3];
    for (k, limit) in limits.into_iter().enumerate() {
        n[k] = field(fields[k + 1], limit)?;
    }
    Ok(match fields[0][0] {
        b'O' => Act::Open(n[0]),
        b'R' => Act::Read(n[0], n[1], n[2]),
        b'W' => Act::Write(n[0], n[1], n[2]),
        b'C' => Act::Commit(n[0]),
        b'A' => Act::Abort(n[0]),
        b'P' => Act::Peek(n[1], n[2]),
        _ => Act::Retire,
    })
}

/// The acts of a whole input, as a program takes it.
pub fn read(input: &[u8]) -> Result<Vec<Act>, Refused> {
    if input.len() > INPUT_LIMIT {
        return Err(Refused { line: 0, number: 13, cause: None });
    }
    let mut acts = Vec::new();
    let mut rest = input;
    while !rest.is_empty() {
        let at = acts.len() + 1;
        let faulty = |cause| Refused { line: at, number: 9, cause: Some(cause) };
        let end = rest.iter().position(|b| *b == b'\n').ok_or(faulty(1))?;
        let act = line(&rest[..end]).map_err(faulty)?;
        if acts.len() == STEP_LIMIT {
            return Err(Refused { line: at, number: 13, cause: None });
        }
        acts.push(act);
        rest = &rest[end + 1..];
    }
    Ok(acts)
}

/// An act as a line, without the line end.
pub fn show(act: &Act) -> String {
    match act {
        Act::Open(j) => format!("O,{j},,"),
        Act::Read(j, x, v) => format!("R,{j},{x},{v}"),
        Act::Write(j, x, v) => format!("W,{j},{x},{v}"),
        Act::Commit(j) => format!("C,{j},,"),
        Act::Abort(j) => format!("A,{j},,"),
        Act::Peek(x, v) => format!("P,,{x},{v}"),
        Act::Retire => "T,,,".to_string(),
    }
}

/// Acts as a trace.
pub fn write(acts: &[Act]) -> Vec<u8> {
    let mut out = Vec::new();
    for act in acts {
        out.extend_from_slice(show(act).as_bytes());
        out.push(b'\n');
    }
    out
}
