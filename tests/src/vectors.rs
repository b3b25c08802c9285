//! The recorded calls in vectors/, one a line after the session that they are
//! about. Those in sharp.txt are small, and each tells wrong readings of
//! documents 01 and 02 from the right one.
//!
//!     session RECORDS
//!     shows RECORDS
//!     prints PAGE
//!     check NUMBER PLACE
//!     timetable CLEARANCE WORK RESULT LIST NUMBER PLACE COUNT
//!     plain CLEARANCE WORK RESULT NUMBER PLACE COUNT
//!     depth CLEARANCE RESULT NUMBER PLACE COUNT
//!     page CLEARANCE RESULT LENGTH NUMBER PLACE COUNT PAGECOUNT
//!
//! RECORDS are in hexadecimal with a blank between, without the zero bytes at a
//! record's end; a rest that is no whole record has a plus sign before it, and
//! nothing at all is a minus sign. `shows` has the result of the runs below it
//! that are not refused, `prints` the page of those with a page, a bar for each line
//! feed. WORK, RESULT and LENGTH, of the page, are the lengths of the lent buffers.
//! LIST has levels with a comma between, 7x3 being three times 7.
//!
//! Calls that lend a result buffer of 4,624 bytes, once enough, are refused by 11; each
//! is there with 5,136 bytes too.

use crate::library::Answer;
use crate::request::{Lengths, Outcome, Request, Run};
use std::fs;

/// A call with its recorded outcome.
#[derive(Clone)]
pub struct Vector {
    pub session: Vec<u8>,
    pub request: Request,
    pub expected: Outcome,
}

/// The files of recorded calls.
const FILES: [&str; 2] = ["calls.txt", "sharp.txt"];

/// Reads all vectors. An error names the file or the line at fault.
pub fn read() -> Result<Vec<Vector>, String> {
    let mut vectors = Vec::new();
    for name in FILES {
        read_file(name, &mut vectors)?;
    }
    Ok(vectors)
}

fn read_file(name: &str, vectors: &mut Vec<Vector>) -> Result<(), String> {
    let path = format!("{}/vectors/{name}", env!("CARGO_MANIFEST_DIR"));
    let text = fs::read_to_string(&path).map_err(|error| format!("{path}: {error}"))?;
    let mut session = Vec::new();
    let mut shown = Vec::new();
    let mut printed = Vec::new();
    for (i, line) in text.lines().enumerate() {
        let (first, rest) = line.split_once(' ').unwrap_or((line, ""));
        let parsed = match first {
            "session" => bytes(rest).map(|bytes| session = bytes),
            "shows" => bytes(rest).map(|bytes| shown = bytes),
            "prints" => page(rest).map(|bytes| printed = bytes),
            _ => call(first, rest, &session, [&shown, &printed]).map(|vector| vectors.push(vector)),
        };
        parsed.ok_or_else(|| format!("{path}: line {} is damaged", i + 1))?;
    }
    Ok(())
}

fn call(kind: &str, rest: &str, session: &[u8], [shown, printed]: [&[u8]; 2]) -> Option<Vector> {
    let mut words: Vec<&str> = rest.split(' ').collect();
    let list = if kind == "timetable" {
        timetable(words.remove(3))?
    } else {
        Vec::new()
    };
    let numbers: Vec<usize> = words
        .iter()
        .map(|word| word.parse().ok())
        .collect::<Option<_>>()?;
    let (request, answer) = request(kind, list, &numbers)?;
    // A call that writes nothing to a buffer has a count of 0 of it.
    let [written, page] = [(answer.count, shown), (answer.page_count, printed)]
        .map(|(count, bytes)| if count == 0 { &[] } else { bytes }.to_vec());
    Some(Vector {
        session: session.to_vec(),
        request,
        expected: Outcome {
            answer,
            written,
            page,
        },
    })
}

fn request(kind: &str, timetable: Vec<u8>, numbers: &[usize]) -> Option<(Request, Answer)> {
    let (run, clearance, [work, result, page], answer) = match (kind, numbers) {
        ("check", answer @ &[_, _]) => return Some((Request::Check, answer_of(answer)?)),
        ("timetable", &[clearance, work, result, ref answer @ ..]) => {
            let run = Run::Timetabled(timetable);
            (run, clearance, [work, result, 0], answer)
        }
        ("plain", &[clearance, work, result, ref answer @ ..]) => {
            (Run::Plain, clearance, [work, result, 0], answer)
        }
        ("depth", &[clearance, result, ref answer @ ..]) => {
            (Run::DepthFirst, clearance, [0, result, 0], answer)
        }
        ("page", &[clearance, result, page, ref answer @ ..]) => {
            (Run::Page, clearance, [0, result, page], answer)
        }
        _ => return None,
    };
    let lengths = Lengths {
        work,
        result,
        page,
        place_and_count: run.numbers(),
    };
    // Place and count, and a page's count.
    if answer.len() != 1 + run.numbers() {
        return None;
    }
    let request = Request::Run {
        run,
        clearance,
        lengths,
    };
    Some((request, answer_of(answer)?))
}

/// Number, place and the counts that there are.
fn answer_of(numbers: &[usize]) -> Option<Answer> {
    let &[number, place, ref counts @ ..] = numbers else {
        return None;
    };
    let count = |k: usize| counts.get(k).copied().unwrap_or(0);
    Some(Answer {
        number: number as u32,
        place,
        count: count(0),
        page_count: count(1),
    })
}

fn timetable(text: &str) -> Option<Vec<u8>> {
    if text == "-" {
        return Some(Vec::new());
    }
    let mut list = Vec::new();
    for run in text.split(',') {
        let (level, times) = run.split_once('x').unwrap_or((run, "1"));
        let length = list.len() + times.parse::<usize>().ok()?;
        list.resize(length, level.parse().ok()?);
    }
    Some(list)
}

/// A page as it stands in the file: whole lines, each with a bar for its line feed.
fn page(text: &str) -> Option<Vec<u8>> {
    let is_whole = text.ends_with('|');
    is_whole.then(|| text.replace('|', "\n").into_bytes())
}

/// Records as they stand in the file.
pub fn bytes(text: &str) -> Option<Vec<u8>> {
    let mut bytes = Vec::new();
    if text == "-" {
        return Some(bytes);
    }
    for word in text.split(' ') {
        match word.strip_prefix('+') {
            Some(rest) => bytes.extend(from_hex(rest)?),
            None => {
                let mut record = from_hex(word)?;
                record.resize(16, 0);
                bytes.extend(record);
            }
        }
    }
    Some(bytes)
}

fn from_hex(text: &str) -> Option<Vec<u8>> {
    let (pairs, rest) = text.as_bytes().as_chunks::<2>();
    if !rest.is_empty() {
        return None;
    }
    let digit = |byte: u8| char::from(byte).to_digit(16);
    pairs
        .iter()
        .map(|&[high, low]| Some((digit(high)? * 16 + digit(low)?) as u8))
        .collect()
}

/// Bytes in hexadecimal, for a message.
pub fn to_hex(bytes: &[u8]) -> String {
    bytes.iter().map(|byte| format!("{byte:02x}")).collect()
}
