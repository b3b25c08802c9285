//! Fixed sessions: the example of document 01, a typical one and largest ones.

use super::draft::Draft;
use super::scene::counted;
use crate::limits::*;
use crate::record::Operation::{self, *};

/// Gives the bytes of a session.
pub type Fixed = fn() -> Vec<u8>;

/// All of them by name.
pub const FIXED: [(&str, Fixed); 6] = [
    ("session W", example_w),
    ("typical", typical),
    ("largest by forks", largest_by_forks),
    ("largest by steps", largest_by_steps),
    ("largest by versions", largest_by_versions),
    ("largest by objects", largest_by_objects),
];

fn send(a: u8, name: u8, object: u8) -> Operation {
    Send { a, name, object }
}

/// Session W of document 01.
pub fn example_w() -> Vec<u8> {
    let mut draft = Draft {
        masks: vec![0b01, 0b11],
        objects: vec![(0, [Some(5), None, None]), (1, [None; FIELDS])],
        ..Draft::default()
    };
    let script = vec![
        Read { a: 0, field: 0 },
        send(0, 0, 1),
        Set { a: 1, n: 9 },
        Write { a: 1, field: 0 },
        Quit { a: 1 },
    ];
    draft.put(0, 0, script);
    draft.put(0, 1, vec![Read { a: 1, field: 0 }, Quit { a: 1 }]);
    let script = vec![
        Write { a: 0, field: 0 },
        send(1, 1, 0),
        Write { a: 1, field: 1 },
    ];
    draft.put(1, 0, script);
    draft.bytes()
}

/// Replies the sum of two fields.
fn sum_of_fields() -> Vec<Operation> {
    vec![
        Read { a: 1, field: 0 },
        Read { a: 2, field: 1 },
        Add { a: 1, b: 2 },
        Quit { a: 1 },
    ]
}

/// A session of middle size: 4 levels, two of them incomparable, 10 objects. The
/// root changes an object and tells five above it, each of which asks below,
/// keeps a sum and tells the top.
pub fn typical() -> Vec<u8> {
    let levels = [0, 0, 1, 1, 1, 2, 2, 2, 3, 3];
    let mut draft = Draft {
        masks: vec![0b0001, 0b0011, 0b0101, 0b1111],
        objects: (1..)
            .zip(levels)
            .map(|(n, level)| (level, [Some(n), Some(7), None]))
            .collect(),
        ..Draft::default()
    };
    for object in 0..10 {
        draft.put(object, 1, sum_of_fields());
    }
    for object in 2..8 {
        let script = vec![
            send(1, 1, object % 2),
            Add { a: 0, b: 1 },
            Write { a: 0, field: 0 },
            send(0, 0, 8 + object % 2),
            Write { a: 1, field: 2 },
        ];
        draft.put(object, 0, script);
    }
    for object in 8..10 {
        let script = vec![
            Write { a: 0, field: 0 },
            send(1, 1, object - 6),
            send(2, 1, object - 3),
            Add { a: 1, b: 2 },
            Write { a: 1, field: 1 },
        ];
        draft.put(object, 0, script);
    }
    let mut script = vec![Read { a: 0, field: 0 }, send(1, 1, 1), Add { a: 0, b: 1 }];
    script.extend(
        [2, 5, 3, 6, 8]
            .map(|object| [Write { a: 0, field: 0 }, send(2, 0, object)])
            .concat(),
    );
    script.push(Quit { a: 0 });
    draft.put(0, 0, script);
    draft.bytes()
}

/// 297 records and 144 managers of few steps: the 8 subsets of 3 things as
/// levels; every manager forks as often as it can, at the next levels above.
pub fn largest_by_forks() -> Vec<u8> {
    let subsets = |i: u8| (0..8u8).filter(|j| j & !i == 0).map(|j| 1 << j).sum();
    let mut draft = full_size((0..8).map(subsets).collect());
    for level in 0..7u8 {
        let next = |u: &u8| level & !u == 0 && (u & !level).count_ones() == 1;
        let above: Vec<u8> = (0..8).filter(next).collect();
        let script = (0..FORKS_MAX as usize)
            .map(|i| send(0, 0, 4 * above[i % above.len()]))
            .collect();
        draft.put(4 * level, 0, script);
    }
    draft.put(28, 0, vec![Write { a: 0, field: 0 }]);
    padded(draft)
}

/// 297 records, and more than 50,000 script steps of 208 managers: a chain of 8
/// levels; every manager writes and forks in turn, then reads below until its
/// steps are spent.
pub fn largest_by_steps() -> Vec<u8> {
    let mut draft = full_size((0..8u32).map(|i| ((1u32 << (i + 1)) - 1) as u8).collect());
    for level in 0..8u8 {
        let (object, below) = (4 * level, 4 * level.saturating_sub(1));
        let mut body = vec![Write { a: 0, field: 0 }];
        if level < 7 {
            body.push(send(0, 0, object + 4));
        }
        let mut script = counted(FORKS_MAX, body);
        let start = script.len() as u8;
        script.extend([
            send(0, 1, below),
            Set { a: 2, n: 3 },
            Add { a: 0, b: 2 },
            Read { a: 3, field: 1 },
            Jump {
                a: 1,
                target: start,
            },
        ]);
        draft.put(object, 0, script);
        draft.put(object, 1, sum_of_fields());
    }
    padded(draft)
}

/// A level of which all 32 managers write 16 fields each, 512 versions, and
/// managers above it that add up what they read there, mostly older versions.
///
/// A chain of 4 levels. The root forks 5 managers at level 1. Each of them forks
/// 10 at level 2, of which 32 are kept, and 5 at level 3.
pub fn largest_by_versions() -> Vec<u8> {
    let levels = [0, 1, 2, 2, 2, 2, 2, 2, 3];
    let [planner, writer, reader] = [1, 2, 8];
    let mut draft = Draft {
        masks: vec![0b0001, 0b0011, 0b0111, 0b1111],
        objects: levels.map(|level| (level, [Some(1); FIELDS])).to_vec(),
        ..Draft::default()
    };
    let forks = (1..=5).flat_map(|i| [Set { a: 0, n: 100 * i }, send(0, 0, planner)]);
    draft.put(0, 0, forks.collect());
    // A field keeps what the forks get, as each takes it from its register. No two
    // writers get the same number.
    let (read, write) = (Read { a: 0, field: 0 }, Write { a: 0, field: 0 });
    draft.put(planner, 0, vec![write, send(0, 1, planner)]);
    let add_1 = Add { a: 0, b: 3 };
    let forks = [
        vec![read, add_1, send(0, 0, writer)],
        vec![read, send(0, 0, reader)],
        vec![read, add_1, add_1, write, send(0, 0, writer)],
    ];
    draft.put(planner, 1, counted(5, forks.concat()));

    // Five objects get three versions, the writer one.
    let fields = 0..FIELDS as u8;
    let mut script: Vec<Operation> = (writer + 1..reader).map(|o| send(0, 0, o)).collect();
    script.push(Write { a: 0, field: 0 });
    draft.put(writer, 0, script);
    for object in writer + 1..reader {
        let mut script: Vec<Operation> =
            fields.clone().map(|field| Write { a: 0, field }).collect();
        script.push(Quit { a: 0 });
        draft.put(object, 0, script);
    }
    for object in writer..reader {
        let field = object % FIELDS as u8;
        draft.put(object, 1, vec![Read { a: 1, field }, Quit { a: 1 }]);
    }
    let script = fields.map(|field| {
        let (a, b) = (2, 1);
        let read = [Read { a, field }, send(b, 1, writer + 1 + field)];
        [read, [Add { a, b }, Write { a, field }]].concat()
    });
    draft.put(reader, 0, script.collect::<Vec<_>>().concat());
    draft.bytes()
}

/// The longest result: as many managers as there can be, and 64 objects, half of them
/// made. A chain of 8 levels; every manager makes 15 forks at the next level and tries
/// to make four objects, which the first of each level does.
fn largest_by_objects() -> Vec<u8> {
    let mut draft = full_size((0..8u32).map(|i| ((1u32 << (i + 1)) - 1) as u8).collect());
    for level in 0..8u8 {
        let object = 4 * level;
        let mut script = match level {
            7 => Vec::new(),
            _ => counted(FORKS_MAX, vec![send(0, 0, object + 4)]),
        };
        script.push(Set { a: 1, n: 7 });
        script.extend([Create { a: 0 }; MADE_MAX]);
        draft.put(object, 0, script);
    }
    draft.bytes()
}

/// 8 levels with 4 objects each.
fn full_size(masks: Vec<u8>) -> Draft {
    Draft {
        masks,
        objects: (0..OBJECTS_MAX as u32)
            .map(|i| ((i / 4) as u8, [Some(i), Some(1), None]))
            .collect(),
        ..Draft::default()
    }
}

/// The draft with 256 step records, those added being of methods without use.
fn padded(mut draft: Draft) -> Vec<u8> {
    for object in (1..OBJECTS_MAX as u8).filter(|object| object % 4 != 0) {
        draft.put(object, 2, vec![Set { a: 0, n: 1 }; METHOD_STEPS_MAX]);
    }
    draft.bytes()
}
