//! What a finished run leaves, and the result records that show it to a reader.

use super::session::Session;
use crate::limits::FIELDS;
use crate::record::{self, History, Record, Value};

#[derive(Clone, Debug, PartialEq, Eq)]
pub struct Outcome {
    /// The fields of each object by number; none for a number without an object.
    pub objects: Vec<Option<[Value; FIELDS]>>,
    /// The histories of each level, in stamp order.
    pub histories: Vec<Vec<History>>,
    /// The root's reply.
    pub reply: Value,
}

impl Outcome {
    /// The result bytes for a clearance, the levels' groups by rising number.
    pub fn shown(&self, session: &Session, clearance: usize) -> Vec<u8> {
        let is_shown = |level: usize| session.lattice.dominates(clearance, level);
        let mut records: Vec<Record> = Vec::new();
        for (number, object) in (0..).zip(&self.objects) {
            let Some(fields) = *object else {
                continue;
            };
            let level = session.level_of(number);
            if is_shown(level) {
                let kind = record::SHOWN_OBJECT;
                records.push(record::object(kind, number, level as u8, fields));
            }
        }
        let histories = self.shown_histories(session, clearance);
        records.extend(histories.map(|history| history.record()));
        let root_level = session.root_level();
        if is_shown(root_level) {
            records.push(record::reply(root_level as u8, self.reply));
        }
        records.concat()
    }

    /// The histories that a clearance is shown, in the order of the result.
    pub fn shown_histories<'a>(
        &'a self,
        session: &'a Session,
        clearance: usize,
    ) -> impl Iterator<Item = &'a History> {
        let levels = self.histories.iter().enumerate();
        levels
            .filter(move |(level, _)| session.lattice.dominates(clearance, *level))
            .flat_map(|(_, histories)| histories)
    }

    pub fn managers(&self) -> usize {
        self.histories.iter().map(Vec::len).sum()
    }

    pub fn script_steps(&self) -> usize {
        let histories = self.histories.iter().flatten();
        histories.map(|history| usize::from(history.steps)).sum()
    }
}
