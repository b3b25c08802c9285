//! Shapes with ordinary work on all levels: methods that read below, write and
//! send in all directions.

use super::draft::Draft;
use super::lattices;
use super::scene::{Scene, WORK_NAMES};
use crate::limits::*;
use crate::random::Random;
use crate::record::Operation;

/// Gives objects short methods that read below, write and sometimes send up.
pub fn work_everywhere(scene: &mut Scene, most: usize) {
    for object in 0..scene.draft.objects.len() as u8 {
        for name in 0..scene.random.below(WORK_NAMES + 1) as u8 {
            if !scene.has_room() {
                return;
            }
            let mut script = Vec::new();
            for _ in 0..scene.random.between(1, most) {
                script.push(work_step(scene, object));
            }
            scene.draft.put(object, name, script);
        }
    }
}

fn work_step(scene: &mut Scene, object: u8) -> Operation {
    if scene.with_objects && scene.random.one_in(6) {
        return scene.object_step();
    }
    let level = scene.level_of(object);
    let a = scene.random.byte_below(REGISTERS);
    match scene.random.below(9) {
        0..=2 => scene.write(),
        3 => scene.read(a),
        4 | 5 => match scene.object_below(level) {
            Some(lower) => scene.send_work(lower),
            None => scene.read(a),
        },
        6 => match scene.object_above(level) {
            Some(upper) => scene.send_work(upper),
            None => scene.write(),
        },
        7 => {
            let any = scene.random.byte_below(scene.draft.objects.len());
            scene.send_work(any)
        }
        _ => scene.quiet(a),
    }
}

/// Writes and forks in turn on every level, and reads of what lies below: reads
/// of older versions.
pub fn versions(random: &mut Random) -> Draft {
    let masks = match random.one_in(6) {
        true => lattices::chain(random, 4),
        false => lattices::branching(random),
    };
    let mut scene = Scene::new(random, masks);
    for object in 0..scene.draft.objects.len() as u8 {
        if !scene.has_room() {
            break;
        }
        let get = vec![scene.read(1), Operation::Quit { a: 1 }];
        scene.draft.put(object, 0, get);
        let length = scene.random.between(2, 6);
        let script = (0..length).map(|_| version_step(&mut scene, object));
        let script = script.collect();
        scene.draft.put(object, 1, script);
    }
    let low = scene.lowest_level();
    let object = scene.object_at(low);
    let length = scene.random.between(6, 14);
    let script = (0..length)
        .map(|_| version_step(&mut scene, object))
        .collect();
    scene.start_with(object, script);
    scene.draft
}

/// A write, a read of an object below, or work for one above.
fn version_step(scene: &mut Scene, object: u8) -> Operation {
    if scene.with_objects && scene.random.one_in(6) {
        return scene.object_step();
    }
    let level = scene.level_of(object);
    let a = scene.random.byte_below(REGISTERS);
    let name = match scene.random.below(8) {
        0 | 1 => return scene.write(),
        2 => {
            let n = scene.random.number();
            return Operation::Set { a, n };
        }
        3 | 4 => 0,
        _ => 1,
    };
    let receiver = match name {
        0 => scene.object_below(level),
        _ => scene.object_above(level),
    };
    match receiver {
        Some(object) => Operation::Send { a, name, object },
        None => scene.write(),
    }
}

/// The root forks a few objects again and again, which write and read each
/// other: each one sees what those before it left, and no later one.
pub fn siblings(random: &mut Random) -> Draft {
    let masks = match random.one_in(6) {
        true => lattices::chain(random, 4),
        false => lattices::branching(random),
    };
    let mut scene = Scene::new(random, masks);
    let low = scene.lowest_level();
    let field = scene.random.byte_below(FIELDS);
    let siblings: Vec<u8> = (0..scene.random.between(2, 5))
        .filter_map(|_| scene.object_above(low))
        .collect();
    for &object in &siblings {
        let get = vec![Operation::Read { a: 1, field }, Operation::Quit { a: 1 }];
        scene.draft.put(object, 0, get);
        let mut script = vec![Operation::Write { a: 0, field }];
        for _ in 0..scene.random.between(1, 4) {
            // Upward it forks a manager that reads in vain.
            let (a, name) = (scene.random.byte_below(2), 0);
            let object = scene.random.pick(&siblings);
            script.push(Operation::Send { a, name, object });
            script.push(scene.write());
        }
        scene.draft.put(object, 1, script);
    }
    let mut script = Vec::new();
    for _ in 0..scene.random.between(3, 8) {
        let (a, name, n) = (0, 1, scene.random.number());
        let object = scene.random.pick(&siblings);
        script.push(Operation::Set { a, n });
        script.push(Operation::Send { a, name, object });
    }
    let object = scene.object_at(low);
    scene.start_with(object, script);
    scene.draft
}

/// Methods of all operations with sends in all directions; a manager may run
/// into any limit.
pub fn busy(random: &mut Random) -> Draft {
    let masks = lattices::any(random);
    let mut scene = Scene::new(random, masks);
    let longest = scene.random.size(2, METHOD_STEPS_MAX);
    fill_busy(&mut scene, longest, 120);
    let object = scene.random.byte_below(scene.draft.objects.len());
    let name = scene.random.byte_below(WORK_NAMES);
    scene.start(object, name);
    scene.draft
}

/// 8 levels, 32 objects and 256 step records.
pub fn largest(random: &mut Random) -> Draft {
    let masks = match random.below(4) {
        0 => lattices::chain(random, LEVELS_MAX),
        1 => lattices::two_chains(random, LEVELS_MAX),
        _ => lattices::bounded(random, LEVELS_MAX),
    };
    let mut scene = Scene::new(random, masks);
    while scene.draft.objects.len() < OBJECTS_MAX {
        let level = scene.random.byte_below(LEVELS_MAX);
        let fields = [(); FIELDS].map(|()| scene.random.value());
        scene.draft.objects.push((level, fields));
    }
    let longest = scene.random.between(4, METHOD_STEPS_MAX);
    fill_busy(&mut scene, longest, STEP_RECORDS_MAX);
    while scene.draft.step_records() < STEP_RECORDS_MAX {
        let object = scene.random.byte_below(OBJECTS_MAX);
        let script = busy_script(&mut scene, object, longest);
        scene.add(object, script);
    }
    let low = scene.lowest_level();
    let object = scene.object_at(low);
    let name = scene.random.byte_below(WORK_NAMES);
    scene.start(object, name);
    scene.draft
}

/// Methods under the ordinary names, up to a number of steps in all.
fn fill_busy(scene: &mut Scene, longest: usize, steps: usize) {
    for name in 0..WORK_NAMES as u8 {
        for object in 0..scene.draft.objects.len() as u8 {
            if scene.draft.step_records() < steps && !scene.random.one_in(6) {
                let script = busy_script(scene, object, longest);
                scene.draft.put(object, name, script);
            }
        }
    }
}

fn busy_script(scene: &mut Scene, object: u8, longest: usize) -> Vec<Operation> {
    let length = scene.random.between(1, longest);
    (0..length)
        .map(|_| busy_step(scene, object, length))
        .collect()
}

fn busy_step(scene: &mut Scene, object: u8, length: usize) -> Operation {
    if scene.with_objects && scene.random.one_in(6) {
        return scene.object_step();
    }
    let level = scene.level_of(object);
    let a = scene.random.byte_below(REGISTERS);
    match scene.random.below(20) {
        0..=3 => scene.write(),
        4..=6 => scene.read(a),
        7..=8 => scene.quiet(a),
        9 => Operation::Jump {
            a,
            target: scene.random.size(0, length) as u8,
        },
        10 => Operation::Quit { a },
        11..=14 => {
            let upper = scene.object_above(level).unwrap_or(object);
            scene.send_work(upper)
        }
        15..=16 => {
            let lower = scene.object_below(level).unwrap_or(object);
            scene.send_work(lower)
        }
        _ => {
            let any = scene.random.byte_below(scene.draft.objects.len());
            scene.send_work(any)
        }
    }
}
