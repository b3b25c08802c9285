//! The histories of ended managers, and the result records.

use super::tables::Tables;
use crate::library::Answer;
use crate::limits::*;
use crate::record::{self, History, Record, Value};

/// The histories of each level, in stamp order.
pub struct Histories {
    histories: [[History; KEPT_MAX]; LEVELS_MAX],
    counts: [u8; LEVELS_MAX],
}

impl Histories {
    pub fn new() -> Self {
        Histories {
            histories: [[History::default(); KEPT_MAX]; LEVELS_MAX],
            counts: [0; LEVELS_MAX],
        }
    }

    pub fn of(&self, level: u8) -> &[History] {
        let level = usize::from(level);
        &self.histories[level][..usize::from(self.counts[level])]
    }

    pub fn push(&mut self, history: History) {
        let level = usize::from(history.level);
        let count = &mut self.counts[level];
        self.histories[level][usize::from(*count)] = history;
        *count += 1;
    }

    /// The write stamp with which the next manager of the level starts.
    pub fn next_write_stamp(&self, level: u8) -> u16 {
        self.of(level)
            .last()
            .map_or(1, |last| last.last_write_stamp + 1)
    }

    /// Writes the result; `fields` gives the fields of an object as they are at the
    /// end, and none if it is not there then.
    pub fn show(
        &self,
        tables: &Tables,
        clearance: usize,
        reply: Value,
        fields: impl Fn(u8) -> Option<[Value; FIELDS]>,
        result: &mut [u8],
    ) -> Answer {
        let shown = tables.dominated(clearance as u8);
        let is_shown = |level: u8| shown >> level & 1 == 1;
        let (places, _) = result.as_chunks_mut::<16>();
        let mut count = 0;
        let mut put = |record: Record| {
            places[count] = record;
            count += 1;
        };
        let mut put_object = |number: usize, level: u8| {
            if is_shown(level) {
                let number = number as u8;
                if let Some(fields) = fields(number) {
                    put(record::object(record::SHOWN_OBJECT, number, level, fields));
                }
            }
        };
        for (number, object) in tables.objects.iter().enumerate() {
            put_object(number, object[2]);
        }
        if tables.changes_objects {
            for place in 0..MADE_MAX * tables.levels {
                put_object(OBJECTS_MAX + place, (place / MADE_MAX) as u8);
            }
        }
        for level in 0..tables.levels as u8 {
            if is_shown(level) {
                for history in self.of(level) {
                    put(history.record());
                }
            }
        }
        if is_shown(tables.root_level()) {
            put(record::reply(tables.root_level(), reply));
        }
        Answer::finished(16 * count)
    }
}
