//! The page of a depth-first run, made from the result records that the run wrote.

use crate::limits::{LEVELS_MAX, PAGE_LINE};
use crate::record::{number_at, records, Record, HISTORY};

type Line = [u8; PAGE_LINE];

/// Lines with nothing but what they all have.
const BLANK: Line = *b"                           \n";
const TOTAL: Line = *b"TOTAL                      \n";
const AVERAGE: Line = *b"LEVEL                      \n";

// Where the columns of a line start, counted from 0.
const LEVEL: usize = 9;
const ENDING: usize = 11;
const WRITES: usize = 13;
const FIRST: usize = 16;
const LAST: usize = 20;
const STEPS: usize = 24;
const SUM: usize = 22;
const AVERAGED: usize = 6;
const QUOTIENT: usize = 16;
const REMAINDER: usize = 24;

/// Writes the page of a result, for which there is room; gives its length.
pub fn write(result: &[u8], page: &mut [u8]) -> usize {
    let (lines, _) = page.as_chunks_mut::<PAGE_LINE>();
    let histories = records(result).iter().filter(|record| record[0] == HISTORY);
    let mut count = 0;
    // Managers and script steps of each level.
    let mut levels = [(0, 0); LEVELS_MAX];
    for (place, history) in lines.iter_mut().zip(histories) {
        *place = line(history);
        let (managers, steps) = &mut levels[usize::from(history[1])];
        *managers += 1;
        *steps += two_bytes(history, 12);
        count += 1;
    }
    lines[count] = total(levels.iter().map(|(_, steps)| steps).sum());
    for (level, (managers, steps)) in levels.into_iter().enumerate() {
        if managers > 0 {
            count += 1;
            lines[count] = average(level as u8, steps / managers, steps % managers);
        }
    }
    PAGE_LINE * (count + 1)
}

fn total(steps: u32) -> Line {
    let mut line = TOTAL;
    put_decimal::<5>(&mut line, SUM, steps);
    line
}

fn average(level: u8, quotient: u32, remainder: u32) -> Line {
    let mut line = AVERAGE;
    line[AVERAGED] = b'0' + level;
    put_decimal::<3>(&mut line, QUOTIENT, quotient);
    put_decimal::<3>(&mut line, REMAINDER, remainder);
    line
}

fn line(history: &Record) -> Line {
    let mut line = BLANK;
    line[..8].copy_from_slice(&hexadecimal(number_at(history, 4)));
    line[LEVEL] = b'0' + history[1];
    line[ENDING] = b'0' + history[2];
    put_decimal::<2>(&mut line, WRITES, u32::from(history[3]));
    put_decimal::<3>(&mut line, FIRST, two_bytes(history, 8));
    put_decimal::<3>(&mut line, LAST, two_bytes(history, 10));
    put_decimal::<3>(&mut line, STEPS, two_bytes(history, 12));
    line
}

fn two_bytes(record: &Record, start: usize) -> u32 {
    u32::from(u16::from_le_bytes([record[start], record[start + 1]]))
}

/// Eight upper-case digits, all worked out at once.
fn hexadecimal(number: u32) -> [u8; 8] {
    // Each digit moves to a byte of its own.
    let mut digits = u64::from(number);
    digits = (digits << 16 | digits) & 0x0000_ffff_0000_ffff;
    digits = (digits << 8 | digits) & 0x00ff_00ff_00ff_00ff;
    digits = (digits << 4 | digits) & 0x0f0f_0f0f_0f0f_0f0f;
    // A byte is 1 where the digit is a letter.
    let letters = (digits + 0x0606_0606_0606_0606) >> 4 & 0x0101_0101_0101_0101;
    let gap = u64::from(b'A' - b'9' - 1);
    (digits + 0x3030_3030_3030_3030 + letters * gap).to_be_bytes()
}

/// A number of at most so many digits, right-aligned; the columns are blank before.
fn put_decimal<const COLUMNS: usize>(line: &mut Line, start: usize, number: u32) {
    let columns = &mut line[start..start + COLUMNS];
    let mut left = number;
    for column in columns.iter_mut().rev() {
        *column = b'0' + (left % 10) as u8;
        left /= 10;
        if left == 0 {
            break;
        }
    }
}
