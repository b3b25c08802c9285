//! Sums that are the largest number and sums that pass it, with the results that follow
//! from document 02, worked out by hand.

use super::case::{root, send, Case, NIL};
use super::{history, shown};
use crate::record::Operation::{self, *};
use crate::record::{self, Value};
use crate::vectors::Vector;

const LARGEST: u32 = 4_294_967_295;
const MAX: Value = Some(LARGEST);

/// What is added to what, and the sum.
const SUMS: [(&str, Value, Value, Value); 13] = [
    ("the largest sum", Some(4_294_967_294), Some(1), MAX),
    (
        "the largest sum, of halves",
        Some(1 << 31),
        Some((1 << 31) - 1),
        MAX,
    ),
    ("the largest and 0", MAX, Some(0), MAX),
    ("0 and the largest", Some(0), MAX, MAX),
    ("1 past the largest", MAX, Some(1), None),
    ("1 past the largest, from 1", Some(1), MAX, None),
    (
        "1 past the largest, of halves",
        Some(1 << 31),
        Some(1 << 31),
        None,
    ),
    ("2 past the largest", MAX, Some(2), None),
    ("twice the largest", MAX, MAX, None),
    ("NIL and the largest", None, MAX, None),
    ("the largest and NIL", MAX, None, None),
    ("NIL and 0", None, Some(0), None),
    ("0 and 0", Some(0), Some(0), Some(0)),
];

/// A register added to itself.
const DOUBLES: [(&str, u32, Value); 3] = [
    ("2^31 - 1 to itself", 2_147_483_647, Some(4_294_967_294)),
    ("2^31 to itself", 2_147_483_648, None),
    ("the largest to itself", LARGEST, None),
];

/// The root's parameter with 1 added.
const PARAMETERS: [(&str, u32, Value); 2] = [
    ("parameter, to the largest", 4_294_967_294, MAX),
    ("parameter, past the largest", LARGEST, None),
];

const THREE_STEPS: &str = "\
00000000 0 0  0   1   1   3
TOTAL                     3
LEVEL 0           3       0
";
const FOUR_STEPS: &str = "\
00000000 0 0  0   1   1   4
TOTAL                     4
LEVEL 0           4       0
";

pub fn cases() -> Vec<(&'static str, Vector)> {
    let mut cases: Vec<Case> = SUMS.into_iter().map(sum).collect();
    cases.extend(DOUBLES.map(double));
    cases.extend(PARAMETERS.map(parameter));
    cases.extend([stays_nil(), other_register(), not_jumped(), jumped()]);
    cases.extend([written(), sent(), replied(), made()]);
    cases.extend(loops());
    cases.extend([sent_up(), read_below()]);
    cases.into_iter().flat_map(Case::vectors).collect()
}

/// Two registers are given their values and added, and the sum is replied. The object's
/// fields are NIL.
fn sum((name, x, y, sum): (&'static str, Value, Value, Value)) -> Case {
    let give = |a: u8, value: Value| match value {
        Some(n) => Set { a, n },
        None => Read { a, field: 0 },
    };
    let script = vec![give(1, x), give(2, y), Add { a: 1, b: 2 }, Quit { a: 1 }];
    Case::alone(name, script)
        .shows_alone(vec![shown(0, 0, NIL)], root(0, 0, 4), sum)
        .prints(FOUR_STEPS)
}

fn double((name, n, sum): (&'static str, u32, Value)) -> Case {
    let script = vec![Set { a: 1, n }, Add { a: 1, b: 1 }, Quit { a: 1 }];
    Case::alone(name, script)
        .shows_alone(vec![shown(0, 0, NIL)], root(0, 0, 3), sum)
        .prints(THREE_STEPS)
}

fn parameter((name, n, sum): (&'static str, u32, Value)) -> Case {
    let script = vec![Set { a: 1, n: 1 }, Add { a: 0, b: 1 }, Quit { a: 0 }];
    let mut case = Case::alone(name, script)
        .shows_alone(vec![shown(0, 0, NIL)], root(0, 0, 3), sum)
        .prints(THREE_STEPS);
    case.session.root_parameter = Some(n);
    case
}

/// Register 0 passes the largest number by 1, register 1 is 1.
fn past() -> Vec<Operation> {
    let n = LARGEST;
    vec![Set { a: 0, n }, Set { a: 1, n: 1 }, Add { a: 0, b: 1 }]
}

/// No number comes back when more is added.
fn stays_nil() -> Case {
    let script = [past(), vec![Add { a: 0, b: 1 }, Quit { a: 0 }]].concat();
    Case::alone("1 added to a sum that is NIL", script).shows_alone(
        vec![shown(0, 0, NIL)],
        root(0, 0, 5),
        None,
    )
}

fn other_register() -> Case {
    let script = [past(), vec![Quit { a: 1 }]].concat();
    Case::alone("what was added to a sum that is NIL", script).shows_alone(
        vec![shown(0, 0, NIL)],
        root(0, 0, 4),
        Some(1),
    )
}

/// A JUMP on the largest number goes on to the next step, which replies 1.
fn not_jumped() -> Case {
    let script = vec![
        Set {
            a: 0,
            n: 4_294_967_294,
        },
        Set { a: 1, n: 1 },
        Add { a: 0, b: 1 },
        Jump { a: 0, target: 5 },
        Quit { a: 1 },
    ];
    Case::alone("JUMP on the largest sum", script).shows_alone(
        vec![shown(0, 0, NIL)],
        root(0, 0, 5),
        Some(1),
    )
}

/// A JUMP on a sum that is NIL leaves out the reply.
fn jumped() -> Case {
    let script = [past(), vec![Jump { a: 0, target: 5 }, Quit { a: 1 }]].concat();
    Case::alone("JUMP on a sum that is NIL", script)
        .shows_alone(vec![shown(0, 0, NIL)], root(0, 0, 4), None)
        .prints(FOUR_STEPS)
}

/// Field 0 gets the largest number, field 1, which is 7, the sum past it.
fn written() -> Case {
    let script = vec![
        Set {
            a: 0,
            n: 4_294_967_294,
        },
        Set { a: 1, n: 1 },
        Add { a: 0, b: 1 },
        Write { a: 0, field: 0 },
        Add { a: 0, b: 1 },
        Write { a: 0, field: 1 },
        Read { a: 2, field: 1 },
        Quit { a: 2 },
    ];
    let page = "\
00000000 0 0  2   1   1   8
TOTAL                     8
LEVEL 0           8       0
";
    let mut case = Case::alone("a sum that is NIL, written", script)
        .shows_alone(vec![shown(0, 0, [MAX, None, Some(9)])], root(0, 2, 8), None)
        .prints(page);
    case.session.objects[0].1 = [None, Some(7), Some(9)];
    case
}

/// The method gets NIL as its parameter and writes it to field 0, which is 5.
fn sent() -> Case {
    let script = [past(), vec![send(0, 1, 0), Quit { a: 0 }]].concat();
    let keep = vec![Write { a: 0, field: 0 }, Set { a: 1, n: 6 }, Quit { a: 1 }];
    let page = "\
00000000 0 0  1   1   1   8
TOTAL                     8
LEVEL 0           8       0
";
    let mut case = Case::alone("a sum that is NIL, sent", script)
        .method(0, 1, keep)
        .shows_alone(vec![shown(0, 0, NIL)], root(0, 1, 8), Some(6))
        .prints(page);
    case.session.objects[0].1 = [Some(5), None, None];
    case
}

/// The sum is made of a reply, and a reply itself.
fn replied() -> Case {
    let add = vec![Read { a: 1, field: 0 }, Add { a: 0, b: 1 }, Quit { a: 0 }];
    // 4,294,967,293 with 2 added is the largest, and with 2 more NIL.
    let script = vec![
        Set {
            a: 0,
            n: 4_294_967_293,
        },
        send(0, 1, 0),
        Write { a: 0, field: 1 },
        send(0, 1, 0),
        Quit { a: 0 },
    ];
    let mut case = Case::alone("a sum that is NIL, replied", script)
        .method(0, 1, add)
        .shows_alone(
            vec![shown(0, 0, [Some(2), MAX, None])],
            root(0, 1, 11),
            None,
        );
    case.session.objects[0].1 = [Some(2), None, None];
    case
}

/// Register 1 is the new object's field 0.
fn made() -> Case {
    let script = vec![
        Set { a: 1, n: LARGEST },
        Set { a: 2, n: 1 },
        Add { a: 1, b: 2 },
        Create { a: 0 },
        Quit { a: 0 },
    ];
    Case::alone("a sum that is NIL, of a made object", script).shows_alone(
        vec![shown(0, 0, NIL), shown(32, 0, [None, Some(1), None])],
        root(0, 4, 5),
        Some(32),
    )
}

/// Register 2 is written and added to until it is NIL or 0, and replied. A turn has four
/// steps, the last one three; two are before the loop and one after it.
fn counted(first: u32, added: u32) -> Vec<Operation> {
    vec![
        Set { a: 2, n: first },
        Set { a: 3, n: added },
        Write { a: 2, field: 0 },
        Add { a: 2, b: 3 },
        Jump { a: 2, target: 6 },
        Jump { a: 1, target: 2 },
        Quit { a: 2 },
    ]
}

fn loops() -> [Case; 4] {
    let one = |value: Value| vec![shown(0, 0, [value, None, None])];
    // 3, 6, 12, .. until 3 × 2^30, which is the last to be a number.
    let doubled = vec![
        Set { a: 2, n: 3 },
        Add { a: 2, b: 2 },
        Jump { a: 2, target: 4 },
        Jump { a: 1, target: 1 },
        Quit { a: 2 },
    ];
    let three = "\
00000000 0 0  3   1   1  14
TOTAL                    14
LEVEL 0          14       0
";
    let two = "\
00000000 0 0  2   1   1  10
TOTAL                    10
LEVEL 0          10       0
";
    let down = "\
00000000 0 0  1   1   1   6
TOTAL                     6
LEVEL 0           6       0
";
    let doubling = "\
00000000 0 0  0   1   1  94
TOTAL                    94
LEVEL 0          94       0
";
    [
        // 4,294,967,293, 4,294,967,294 and 4,294,967,295.
        Case::alone("a loop of 3 turns by 1", counted(4_294_967_293, 1))
            .shows_alone(one(MAX), root(0, 3, 14), None)
            .prints(three),
        // 4,294,967,293 and 4,294,967,295. Modulo 2^32 no turn would be the last.
        Case::alone("a loop of 2 turns by 2", counted(4_294_967_293, 2))
            .shows_alone(one(MAX), root(0, 2, 10), None)
            .prints(two),
        // Modulo 2^32 it would count down.
        Case::alone("a loop of 1 turn by the largest", counted(3, LARGEST))
            .shows_alone(one(Some(3)), root(0, 1, 6), None)
            .prints(down),
        // 31 turns: 3 steps each, the last 2. Modulo 2^32 there would be 32.
        Case::alone("a loop that doubles", doubled)
            .shows_alone(vec![shown(0, 0, NIL)], root(0, 0, 94), None)
            .prints(doubling),
    ]
}

/// The manager above gets NIL as its parameter and writes it to field 0, which is 5.
fn sent_up() -> Case {
    let page = "\
00000000 0 0  0   1   2   4
10000000 1 0  1   1   1   1
TOTAL                     5
LEVEL 0           4       0
LEVEL 1           1       0
";
    let script = [past(), vec![send(0, 0, 1)]].concat();
    let mut case = Case::two_levels("a sum that is NIL, sent upward")
        .method(0, 0, script)
        .method(1, 0, vec![Write { a: 0, field: 0 }])
        .timetable(&[0, 0, 0, 0, 0, 1, 1])
        .shows(vec![
            shown(0, 0, NIL),
            shown(1, 1, NIL),
            history(0, 0, 0, 2, 4),
            history(1, 0x1000_0000, 1, 1, 1),
            record::reply(0, None),
        ])
        .prints(page);
    case.session.objects[1].1 = [Some(5), None, None];
    case
}

/// The root forks, then adds 1 to its field, the largest number: NIL. The manager above
/// asks for that field, as it was at the fork. With 0 added it is written to field 0,
/// with 1 more to field 1, which is 5.
fn read_below() -> Case {
    let page = "\
00000000 0 0  1   1   2   6
10000000 1 0  2   1   1   9
TOTAL                    15
LEVEL 0           6       0
LEVEL 1           9       0
";
    let root = vec![
        send(1, 0, 1),
        Read { a: 0, field: 0 },
        Set { a: 1, n: 1 },
        Add { a: 0, b: 1 },
        Write { a: 0, field: 0 },
        Quit { a: 0 },
    ];
    let above = vec![
        send(0, 1, 0),
        Set { a: 1, n: 0 },
        Add { a: 0, b: 1 },
        Write { a: 0, field: 0 },
        Set { a: 1, n: 1 },
        Add { a: 0, b: 1 },
        Write { a: 0, field: 1 },
    ];
    let early = [vec![0; 2], vec![1; 10], vec![0; 5]].concat();
    let late = [vec![0; 7], vec![1; 10]].concat();
    let mut case = Case::two_levels("sums of a number read below")
        .method(0, 0, root)
        .method(0, 1, vec![Read { a: 1, field: 0 }, Quit { a: 1 }])
        .method(1, 0, above)
        .timetable(&early)
        .timetable(&late)
        .shows(vec![
            shown(0, 0, NIL),
            shown(1, 1, [MAX, None, None]),
            history(0, 0, 1, 2, 6),
            history(1, 0x1000_0000, 2, 1, 9),
            record::reply(0, None),
        ])
        .prints(page);
    case.session.objects[0].1 = [MAX, None, None];
    case.session.objects[1].1 = [None, Some(5), None];
    case
}
