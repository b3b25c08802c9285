//! Sessions that make and withdraw objects, with the results that follow from document
//! 02, worked out by hand.

mod levels;

use super::case::{root, send, Case, NIL};
use super::shown;
use crate::record::Operation::{self, *};
use crate::record::{self, History, Value};
use crate::vectors::Vector;

pub fn cases() -> Vec<(&'static str, Vector)> {
    let mut cases = vec![fifth(), first_maker(), at_level_1()];
    cases.extend(limits());
    cases.extend(made());
    cases.extend(withdrawn());
    cases.extend(levels::cases());
    let mut vectors: Vec<_> = cases.into_iter().flat_map(Case::vectors).collect();
    vectors.extend(levels::hidden());
    vectors
}

/// The page of an ending 2 with 13 writes.
const FEWER_WRITES: &str = "\
00000000 0 2 13   1   1  15
TOTAL                    15
LEVEL 0          15       0
";

/// The fifth gives NIL, though 16 writes are counted by then.
fn fifth() -> Case {
    let mut script = vec![Set { a: 1, n: 7 }];
    script.extend([Create { a: 0 }; 5]);
    script.push(Quit { a: 0 });
    let made = (32..36).map(|number| shown(number, 0, [Some(7), None, None]));
    let mut objects = vec![shown(0, 0, NIL)];
    objects.extend(made);
    Case::alone("five CREATEs", script).shows_alone(objects, root(0, 16, 7), None)
}

/// Where a CREATE and a WITHDRAW pass 16 writes.
fn limits() -> Vec<Case> {
    let write = Write { a: 1, field: 0 };
    let create = |writes: usize| {
        let mut script = vec![Set { a: 1, n: 1 }];
        script.extend(vec![write; writes]);
        script.extend([Create { a: 0 }, Quit { a: 0 }]);
        script
    };
    let withdraw = |writes: usize| {
        let mut script = vec![Create { a: 0 }; 3];
        script.extend(vec![write; writes]);
        script.push(Withdraw);
        script
    };
    let one = [Some(1), None, None];
    let mut all = vec![shown(0, 0, NIL)];
    all.extend((32..35).map(|number| shown(number, 0, NIL)));
    let made = all[1..].to_vec();
    let twelve = vec![shown(0, 0, one), shown(32, 0, one)];
    vec![
        Case::alone("CREATE at 12 writes", create(12)).shows_alone(
            twelve,
            root(0, 16, 15),
            Some(32),
        ),
        // Nothing is made or counted, and the CREATE is the fifteenth step.
        Case::alone("CREATE at 13 writes", create(13))
            .shows_alone(vec![shown(0, 0, one)], root(2, 13, 15), None)
            .prints(FEWER_WRITES),
        Case::alone("WITHDRAW as 16th write", withdraw(3)).shows_alone(made, root(0, 16, 7), None),
        Case::alone("WITHDRAW at 16 writes", withdraw(4)).shows_alone(all, root(2, 16, 8), None),
    ]
}

/// Fields and numbers of made objects.
fn made() -> Vec<Case> {
    let fields = vec![
        Set { a: 1, n: 5 },
        Set { a: 3, n: 6 },
        Create { a: 1 },
        Quit { a: 1 },
    ];
    let again = vec![
        Create { a: 0 },
        send(1, 1, 32),
        Create { a: 0 },
        Quit { a: 0 },
    ];
    vec![
        // The number comes to the register after its value went to the field.
        Case::alone("CREATE into register 1", fields).shows_alone(
            vec![shown(0, 0, NIL), shown(32, 0, [Some(5), None, Some(6)])],
            root(0, 4, 4),
            Some(32),
        ),
        Case::alone("a number is used once", again)
            .method(0, 1, vec![Withdraw])
            .shows_alone(
                vec![shown(0, 0, NIL), shown(33, 0, NIL)],
                root(0, 9, 5),
                Some(33),
            ),
    ]
}

/// Object 1 makes 32, which makes 33. Object 1 is withdrawn when it sends to 33, whose
/// methods are those of object 1 still.
fn first_maker() -> Case {
    let script = vec![
        Create { a: 0 },
        send(1, 1, 32),
        Withdraw,
        send(2, 2, 33),
        Quit { a: 2 },
    ];
    let four = [Some(4), None, None];
    let mut case = Case::alone("methods of the first maker", Vec::new())
        .method(1, 0, script)
        .method(1, 1, vec![Set { a: 1, n: 4 }, Create { a: 0 }])
        .method(1, 2, vec![Read { a: 1, field: 0 }, Quit { a: 1 }])
        .shows_alone(
            vec![shown(0, 0, NIL), shown(32, 0, NIL), shown(33, 0, four)],
            root(0, 9, 9),
            Some(4),
        );
    case.session.objects.push((0, NIL));
    case.session.root_object = 1;
    case
}

/// The root is at level 1, which owns 36 to 39.
fn at_level_1() -> Case {
    let history = History {
        level: 1,
        ..root(0, 4, 2)
    };
    let mut case = Case::two_levels("CREATE at level 1")
        .method(1, 0, vec![Create { a: 0 }, Quit { a: 0 }])
        .timetable(&[1; 3])
        .shows(vec![
            shown(0, 0, NIL),
            shown(1, 1, NIL),
            shown(36, 1, NIL),
            history.record(),
            record::reply(1, Some(36)),
        ]);
    case.session.root_object = 1;
    case
}

/// What a frame does whose object another frame withdrew, where the WITHDRAW is all that
/// counts, and one below its manager's level.
fn withdrawn() -> Vec<Case> {
    // The last but one step is tried, and register 0 holds the parameter 9 before it.
    let tried = |name, tried: Operation, reply: Value| {
        let script = vec![send(1, 1, 0), tried, Quit { a: 0 }];
        let mut case = Case::alone(name, script)
            .method(0, 1, vec![Withdraw, Set { a: 1, n: 6 }, Quit { a: 1 }])
            .shows_alone(Vec::new(), root(0, 1, 6), reply);
        case.session.root_parameter = Some(9);
        case.session.objects[0].1 = [Some(5), None, None];
        case
    };
    let mut below = Case::two_levels("CREATE and WITHDRAW below the manager's level")
        .method(0, 0, vec![Create { a: 0 }, Withdraw, Quit { a: 0 }])
        .method(1, 0, vec![send(0, 0, 0), Quit { a: 0 }])
        .timetable(&[1; 6])
        .shows(vec![
            shown(0, 0, NIL),
            shown(1, 1, NIL),
            History {
                level: 1,
                ..root(0, 0, 5)
            }
            .record(),
            record::reply(1, None),
        ]);
    below.session.root_object = 1;
    below.session.root_parameter = Some(6);
    vec![
        tried("READ, withdrawn", Read { a: 0, field: 0 }, None),
        tried("CREATE, withdrawn", Create { a: 0 }, None),
        tried("WRITE, withdrawn", Write { a: 0, field: 0 }, Some(9)),
        tried("WITHDRAW, withdrawn", Withdraw, Some(9)),
        tried(
            "reply of the withdrawing frame",
            Add { a: 0, b: 1 },
            Some(15),
        ),
        below,
    ]
}
