//! The rules of questions 2 to 8 and 17, each broken alone in a session that is valid
//! otherwise, so that the check must answer with that rule's question; and rules of
//! two questions broken together, of which the check puts one first.

mod bounds;
mod operands;

use super::valid_draft;
use crate::limits::*;
use crate::random::Random;
use crate::record::{Operation, Record};
use crate::record::{LEVEL, OBJECT, QUIT, ROOT, STEP};

/// Breaks a rule in the records, if they have a place for it.
type Break = Box<dyn Fn(&mut Random, &mut Vec<Record>) -> bool>;

pub struct Rule {
    pub name: String,
    /// The question that asks for it; of two rules, the question put first.
    pub question: u32,
    breaks: Break,
}

impl Rule {
    fn new(
        question: u32,
        name: impl Into<String>,
        breaks: impl Fn(&mut Random, &mut Vec<Record>) -> bool + 'static,
    ) -> Self {
        Rule {
            name: name.into(),
            question,
            breaks: Box::new(breaks),
        }
    }

    /// A session in which this rule is broken and all others hold.
    pub fn broken(&self, random: &mut Random) -> Vec<u8> {
        loop {
            let mut records = valid_draft(random).records();
            if (self.breaks)(random, &mut records) {
                return records.concat();
            }
        }
    }
}

pub fn all() -> Vec<Rule> {
    let mut rules = Vec::new();
    rules.extend(kinds());
    rules.extend(levels());
    rules.extend(bounds::rules());
    rules.extend(objects());
    rules.extend(methods());
    rules.extend(operands::rules());
    rules.extend(root());
    rules
}

/// A byte of a record that passes gets a wrong value.
fn byte(
    question: u32,
    name: impl Into<String>,
    passes: impl Fn(&Record) -> bool + 'static,
    place: usize,
    wrong: impl Fn(&mut Random, &[Record], &Record) -> u8 + 'static,
) -> Rule {
    Rule::new(question, name, move |random, records| {
        let Some(i) = find(random, records, &passes) else {
            return false;
        };
        let value = wrong(random, records, &records[i]);
        records[i][place] = value;
        true
    })
}

/// The place of a random record that passes.
fn find(
    random: &mut Random,
    records: &[Record],
    passes: impl Fn(&Record) -> bool,
) -> Option<usize> {
    let places: Vec<usize> = (0..records.len())
        .filter(|&i| passes(&records[i]))
        .collect();
    (!places.is_empty()).then(|| random.pick(&places))
}

fn is(kind: u8) -> impl Fn(&Record) -> bool {
    move |record| record[0] == kind
}

fn is_step_of(operation: u8) -> impl Fn(&Record) -> bool {
    move |record| record[0] == STEP && record[3] == operation
}

fn exactly(value: usize) -> impl Fn(&mut Random, &[Record], &Record) -> u8 {
    move |_, _, _| value as u8
}

/// One more than the largest number of a level or an object.
fn count_of(kind: u8) -> impl Fn(&mut Random, &[Record], &Record) -> u8 {
    move |_, records, _| count(records, kind) as u8
}

/// Often 1, the least that is wrong.
fn nonzero(random: &mut Random, _: &[Record], _: &Record) -> u8 {
    let any = 1 + random.byte_below(255);
    random.pick(&[1, any])
}

fn count(records: &[Record], kind: u8) -> usize {
    records.iter().filter(|record| record[0] == kind).count()
}

/// Where the first record of the kind, or of a higher one, stands.
fn first_of(records: &[Record], kind: u8) -> usize {
    records.partition_point(|record| record[0] < kind)
}

/// Puts a record in, if a session has room for it.
fn insert(records: &mut Vec<Record>, place: usize, record: Record) -> bool {
    let has_room = records.len() < RECORDS_MAX
        && (record[0] != STEP || count(records, STEP) < STEP_RECORDS_MAX);
    if has_room {
        records.insert(place, record);
    }
    has_room
}

/// Question 2.
fn kinds() -> Vec<Rule> {
    let of_kind = |kind| {
        let mut record = [0; 16];
        record[0] = kind;
        record
    };
    let mut rules = vec![
        Rule::new(2, "a first record of kind 0", move |_, records| {
            insert(records, 0, of_kind(0))
        }),
        Rule::new(2, "a last record of kind 5", move |_, records| {
            insert(records, records.len(), of_kind(5))
        }),
        Rule::new(2, "a first level of kind 0", |_, records| {
            records[0][0] = 0;
            count(records, LEVEL) > 0
        }),
        byte(2, "a root of kind 5", is(ROOT), 0, exactly(5)),
        Rule::new(2, "two roots", |_, records| {
            insert(records, records.len(), records[records.len() - 1])
        }),
    ];
    for (kind, name) in [
        (LEVEL, "no level"),
        (OBJECT, "no object"),
        (ROOT, "no root"),
    ] {
        rules.push(Rule::new(2, name, move |_, records| {
            records.retain(|record| record[0] != kind);
            true
        }));
    }
    for (kind, name) in [
        (OBJECT, "an object before a level"),
        (STEP, "a step before an object"),
        (ROOT, "the root before a step"),
    ] {
        rules.push(Rule::new(2, name, move |_, records| {
            let first = first_of(records, kind);
            let fits = records[first][0] == kind && records[first - 1][0] == kind - 1;
            records.swap(first - 1, first);
            fits
        }));
    }
    rules
}

/// Questions 3 and 4.
fn levels() -> Vec<Rule> {
    let next = |_: &mut Random, _: &[Record], record: &Record| record[1] + 1;
    let own = |record: &Record| 1 << record[1];
    let mut rules = vec![
        byte(3, "level's number", is(LEVEL), 1, next),
        byte(3, "object's number", is(OBJECT), 1, next),
        byte(4, "level without itself", is(LEVEL), 2, move |_, _, r| {
            r[2] & !own(r)
        }),
        Rule::new(4, "mask with an absent level", |random, records| {
            let levels = count(records, LEVEL);
            let mask = &mut records[random.below(levels)][2];
            *mask |= 1u8.checked_shl(levels as u32).unwrap_or(0);
            levels < LEVELS_MAX
        }),
    ];
    for place in 3..16 {
        let name = format!("level's byte {place}");
        rules.push(byte(3, name, is(LEVEL), place, nonzero));
    }
    rules
}

/// Question 6.
fn objects() -> Vec<Rule> {
    let mut rules = vec![byte(6, "object's level", is(OBJECT), 2, count_of(LEVEL))];
    for bit in FIELDS..8 {
        let name = format!("object's mask, bit {bit}");
        let wrong = move |_: &mut Random, _: &[Record], r: &Record| r[3] | 1 << bit;
        rules.push(byte(6, name, is(OBJECT), 3, wrong));
    }
    for place in 4..16 {
        let field = place / 4 - 1;
        let is_nil = move |r: &Record| r[0] == OBJECT && r[3] >> field & 1 == 0;
        let name = format!("object's byte {place}, of a NIL field");
        rules.push(byte(6, name, is_nil, place, nonzero));
    }
    rules
}

/// Question 7 for whole steps.
fn methods() -> Vec<Rule> {
    vec![
        byte(7, "operation 0", is_step_of(QUIT), 3, exactly(0)),
        byte(7, "operation 10", is_step_of(QUIT), 3, exactly(10)),
        Rule::new(7, "step's object", |random, records| {
            let object = count(records, OBJECT) as u8;
            let step = quit((object, random.byte_below(NAMES)));
            insert(records, records.len() - 1, step)
        }),
        Rule::new(7, "step of a made object", |random, records| {
            let object = random.pick(&[OBJECTS_MAX, NUMBERS - 1]) as u8;
            let step = quit((object, random.byte_below(NAMES)));
            insert(records, records.len() - 1, step)
        }),
        Rule::new(7, "step's name", |random, records| {
            let object = random.byte_below(count(records, OBJECT));
            let steps = first_of(records, STEP)..records.len() - 1;
            let before = records[steps.clone()].partition_point(|step| step[1] <= object);
            insert(records, steps.start + before, quit((object, NAMES as u8)))
        }),
        Rule::new(
            7,
            "methods in falling order of objects",
            |random, records| exchange_methods(random, records, |first, next| first[1] < next[1]),
        ),
        Rule::new(7, "methods in falling order of names", |random, records| {
            exchange_methods(random, records, |first, next| {
                first[1] == next[1] && first[2] < next[2]
            })
        }),
        Rule::new(7, "17 steps in a method", |random, records| {
            let Some(i) = find(random, records, is(STEP)) else {
                return false;
            };
            let method = method_around(records, i);
            let more = METHOD_STEPS_MAX + 1 - method.len();
            (0..more).all(|_| insert(records, method.end, quit(key(&records[i]))))
        }),
    ]
}

fn quit(method: (u8, u8)) -> Record {
    Operation::Quit { a: 0 }.record(method)
}

/// Object and name of a step.
fn key(step: &Record) -> (u8, u8) {
    (step[1], step[2])
}

/// Where the steps stand that are of one method with a step.
fn method_around(records: &[Record], step: usize) -> std::ops::Range<usize> {
    let steps = first_of(records, STEP);
    let own = key(&records[step]);
    let of_steps = &records[steps..first_of(records, ROOT)];
    let start = of_steps.partition_point(|other| key(other) < own);
    let end = of_steps.partition_point(|other| key(other) <= own);
    steps + start..steps + end
}

/// Exchanges a method for the next one, where the two pass.
fn exchange_methods(
    random: &mut Random,
    records: &mut [Record],
    passes: impl Fn(&Record, &Record) -> bool,
) -> bool {
    let is_last = |i: &usize| {
        let (last, next) = (&records[*i], &records[*i + 1]);
        last[0] == STEP && next[0] == STEP && passes(last, next)
    };
    let places: Vec<usize> = (0..records.len() - 1).filter(is_last).collect();
    if places.is_empty() {
        return false;
    }
    let last = random.pick(&places);
    let (first, next) = (
        method_around(records, last),
        method_around(records, last + 1),
    );
    records[first.start..next.end].rotate_left(first.len());
    true
}

/// Question 8.
fn root() -> Vec<Rule> {
    let mut rules = vec![
        byte(8, "root's object", is(ROOT), 1, count_of(OBJECT)),
        byte(
            8,
            "root to a made object",
            is(ROOT),
            1,
            exactly(OBJECTS_MAX),
        ),
        byte(8, "root's name", is(ROOT), 2, exactly(NAMES)),
        byte(8, "root's tag", is(ROOT), 3, exactly(2)),
    ];
    for place in 4..8 {
        let name = format!("root's byte {place}, of a NIL parameter");
        let is_nil = |r: &Record| r[0] == ROOT && r[3] == 0;
        rules.push(byte(8, name, is_nil, place, nonzero));
    }
    for place in 8..16 {
        let name = format!("root's byte {place}");
        rules.push(byte(8, name, is(ROOT), place, nonzero));
    }
    rules
}
