//! Shapes around sums: those that are the largest number, those that pass it, and loops
//! that such a sum ends.

use super::draft::Draft;
use super::lattices;
use super::scene::Scene;
use crate::limits::*;
use crate::random::Random;
use crate::record::Operation;

/// The register that a sum is made in, and the one that is added.
const SUM: u8 = 2;
const TERM: u8 = 3;

/// A few sums at the largest number, next to it or past it, and what becomes of each.
pub fn sums(random: &mut Random) -> Draft {
    let masks = lattices::any(random);
    let mut scene = Scene::new(random, masks);
    let level = scene.random.below(scene.draft.masks.len());
    let object = scene.object_at(level);
    let mut script = Vec::new();
    for _ in 0..scene.random.between(1, 3) {
        script.extend(sum(&mut scene, object));
        use_sum(&mut scene, level, &mut script);
    }
    started(scene, object, script)
}

/// Half of the time the script replies its last sum.
fn started(mut scene: Scene, object: u8, mut script: Vec<Operation>) -> Draft {
    if scene.random.one_in(2) {
        script.push(Operation::Quit { a: SUM });
    }
    let name = scene.add(object, script);
    scene.start_here_or_below(object, name);
    scene.draft
}

/// Two numbers whose sum is the largest one, or one less or more.
fn terms(random: &mut Random) -> [u32; 2] {
    let x = random.number();
    let rest = u32::MAX - x;
    let y = match random.below(4) {
        0 => rest.saturating_sub(1),
        1 => rest.saturating_add(1),
        _ => rest,
    };
    [x, y]
}

/// A sum of a number with one that is set, read or replied, or with itself.
fn sum(scene: &mut Scene, object: u8) -> Vec<Operation> {
    let [x, y] = terms(scene.random);
    let field = scene.random.byte_below(FIELDS);
    let set = Operation::Set { a: SUM, n: x };
    let other = match scene.random.below(5) {
        0 => Operation::Set { a: TERM, n: y },
        1 => {
            scene.draft.objects[usize::from(object)].1[usize::from(field)] = Some(y);
            Operation::Read { a: TERM, field }
        }
        2 => {
            let level = scene.level_of(object);
            let replier = scene.object_below(level).unwrap_or(object);
            let reply = vec![Operation::Set { a: 1, n: y }, Operation::Quit { a: 1 }];
            Operation::Send {
                a: TERM,
                name: scene.add(replier, reply),
                object: replier,
            }
        }
        _ => {
            // The largest number halved is a number when doubled, one more is not.
            let n = u32::MAX / 2 + scene.random.below(2) as u32;
            return vec![
                Operation::Set { a: SUM, n },
                Operation::Add { a: SUM, b: SUM },
            ];
        }
    };
    vec![set, other, Operation::Add { a: SUM, b: TERM }]
}

/// The sum is written, jumped on, sent, a field of a made object, or the reply.
fn use_sum(scene: &mut Scene, level: usize, script: &mut Vec<Operation>) {
    let field = scene.random.byte_below(FIELDS);
    let write = Operation::Write { a: SUM, field };
    match scene.random.below(8) {
        0..=2 => script.push(write),
        3 => {
            let target = script.len() as u8 + 2;
            let other = Operation::Write { a: TERM, field };
            script.extend([Operation::Jump { a: SUM, target }, other]);
        }
        4 => {
            let object = match scene.object_above(level) {
                Some(upper) if scene.random.one_in(2) => upper,
                _ => scene.object_at(level),
            };
            let keep = vec![Operation::Write { a: 0, field }, Operation::Quit { a: 0 }];
            let name = scene.add(object, keep);
            let a = SUM;
            script.extend([Operation::Send { a, name, object }, write]);
        }
        5 => script.push(Operation::Create { a: 0 }),
        _ => script.push(Operation::Quit { a: SUM }),
    }
}

/// A loop that a sum ends: a number is added again and again, or the sum to itself. By
/// sums modulo 2^32 few of them would end. Something becomes of the sum then, which is
/// NIL.
pub fn ended_loop(random: &mut Random) -> Draft {
    let masks = lattices::any(random);
    let mut scene = Scene::new(random, masks);
    let level = scene.random.below(scene.draft.masks.len());
    let object = scene.object_at(level);
    let turns = scene.random.between(1, 20) as u32;
    let mut script = match scene.random.one_in(3) {
        true => doubling(&mut scene, turns),
        false => adding(&mut scene, turns),
    };
    let start = script.len() as u8 - 1;
    for _ in 0..scene.random.below(3) {
        let step = match scene.random.one_in(4) {
            true => scene.write(),
            false => scene.quiet(0),
        };
        script.insert(usize::from(start), step);
    }
    let target = script.len() as u8 + 2;
    script.push(Operation::Jump { a: SUM, target });
    // Register 1 is NIL.
    script.push(Operation::Jump {
        a: 1,
        target: start,
    });
    use_sum(&mut scene, level, &mut script);
    started(scene, object, script)
}

/// A sum that passes the largest number when it was added to itself so many times; the
/// last step is the ADD.
fn doubling(scene: &mut Scene, turns: u32) -> Vec<Operation> {
    let least = 1 << (32 - turns);
    let n = least + scene.random.below(least as usize) as u32;
    vec![
        Operation::Set { a: SUM, n },
        Operation::Add { a: SUM, b: SUM },
    ]
}

/// The same with another number that is added.
fn adding(scene: &mut Scene, turns: u32) -> Vec<Operation> {
    let any = 1 + scene.random.below((u32::MAX / turns) as usize) as u32;
    let term = scene.random.pick(&[1, 2, 3, any, any]);
    // By so much it passes 2^32, often by as little as can be, or by as much.
    let past = scene.random.size(0, term as usize - 1) as u32;
    let n = u32::MAX - (turns * term - 1 - past);
    vec![
        Operation::Set { a: SUM, n },
        Operation::Set { a: TERM, n: term },
        Operation::Add { a: SUM, b: TERM },
    ]
}
