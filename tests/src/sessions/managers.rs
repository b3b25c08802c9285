//! Shapes around the limits of one manager: frames, script steps, writes.

use super::draft::Draft;
use super::lattices;
use super::scene::{counted, Scene};
use crate::limits::*;
use crate::random::Random;
use crate::record::Operation;

/// A method that sends to itself, 6 to 9 times if it can: 7 or 8 frames, and
/// often a ninth wanted. Without steps after the send all pop in one step.
pub fn recursion(random: &mut Random) -> Draft {
    let masks = lattices::any(random);
    let mut scene = Scene::new(random, masks);
    let level = scene.random.below(scene.draft.masks.len());
    let object = scene.object_at(level);
    let name = scene.random.byte_below(3);
    let mut script = vec![
        Operation::Jump { a: 0, target: 16 },
        Operation::Set { a: 1, n: 1 },
        Operation::Add { a: 0, b: 1 },
        Operation::Send { a: 0, name, object },
    ];
    match scene.random.below(4) {
        0 => {}
        1 => script.push(Operation::Quit { a: 0 }),
        2 => script.push(scene.write()),
        _ => script.extend(scene.filler(4)),
    }
    scene.draft.put(object, name, script);
    scene.start(object, name);
    // The parameter counts up, and is NIL in the frame that sends no more.
    let sends = scene.random.between(6, 9) as u32;
    scene.draft.root_parameter = Some(u32::MAX - (sends - 1));
    scene.draft
}

/// A path of 7 to 10 methods, each sending to the next, at any levels below the
/// manager's: sends downward and sends upward inside the manager.
pub fn path(random: &mut Random) -> Draft {
    let masks = lattices::any(random);
    let mut scene = Scene::new(random, masks);
    let top = scene.top_level();
    let length = scene.random.between(7, 10);
    // From the last to the first, which is at the manager's level.
    let mut next = None;
    for i in 0..length {
        let object = match next {
            _ if i + 1 == length => scene.object_at(top),
            Some((below, _)) if scene.random.one_in(2) => {
                let level = scene.level_of(below);
                scene.object_below(level).unwrap_or(below)
            }
            _ => scene.random.byte_below(scene.draft.objects.len()),
        };
        let script = path_script(&mut scene, next);
        let name = scene.add(object, script);
        next = Some((object, name));
    }
    let (object, name) = next.expect("a path has methods");
    scene.start_here_or_below(object, name);
    scene.draft
}

/// A few steps, the send to the next method, and another way to end each time.
fn path_script(scene: &mut Scene, next: Option<(u8, u8)>) -> Vec<Operation> {
    let mut script = scene.filler(2);
    let a = scene.random.byte_below(REGISTERS);
    let (n, field) = (scene.random.number(), scene.random.byte_below(FIELDS));
    script.push(Operation::Set { a, n });
    if let Some((object, name)) = next {
        script.push(Operation::Send { a, name, object });
    }
    match scene.random.below(6) {
        0 | 1 => script.push(Operation::Quit { a }),
        2 => script.extend([Operation::Write { a, field }, Operation::Quit { a }]),
        3 => script.push(scene.write()),
        4 => script.extend([Operation::Set { a, n }, Operation::Quit { a }]),
        _ => {}
    }
    script
}

/// A frame below its manager's level sends upward inside the manager and replies
/// what it has then, which its sender writes. Often the stack is full.
pub fn upward_inside(random: &mut Random) -> Draft {
    let masks = lattices::any(random);
    let mut scene = Scene::new(random, masks);
    let top = scene.top_level();
    let Some(lower) = scene.object_below(top) else {
        return scene.draft;
    };
    let level = scene.level_of(lower);
    let receiver = scene.object_above(level).expect("the top is above");
    let n = scene.random.number();
    let reply = vec![Operation::Set { a: 1, n }, Operation::Quit { a: 1 }];
    let name = scene.add(receiver, reply);
    let (a, mut script) = scene.numbered_send(name, receiver);
    script.push(Operation::Quit { a });
    let mut name = scene.add(lower, script);
    let mut object = lower;
    for _ in 0..scene.random.pick(&[1, 2, 6, 7, 7, 8]) {
        let script = scene.watched_send(name, object);
        object = scene.object_at(top);
        name = scene.add(object, script);
    }
    scene.start_here_or_below(object, name);
    scene.draft
}

/// A loop that ends after 255 to 257 steps.
pub fn long_loop(random: &mut Random) -> Draft {
    let masks = lattices::any(random);
    let mut scene = Scene::new(random, masks);
    let level = scene.random.below(scene.draft.masks.len());
    let object = scene.object_at(level);
    let steps = scene.random.between(255, 257);
    let script = loop_of(&mut scene, steps);
    let name = scene.add(object, script);
    scene.start_here_or_below(object, name);
    scene.draft
}

/// A script without sends and writes that ends after `steps` steps.
fn loop_of(scene: &mut Scene, steps: usize) -> Vec<Operation> {
    let body = scene.random.below(5);
    let count = (steps - 1) / (body + 3);
    let rest = (steps - 1) % (body + 3);
    let body = (0..body).map(|_| scene.quiet(0)).collect();
    let mut script = counted(count as u32, body);
    script.extend((0..rest).map(|_| scene.quiet(0)));
    script
}

/// 15 to 18 writes, some of them by another method of the level, some steps
/// without effect between.
pub fn writes(random: &mut Random) -> Draft {
    let masks = lattices::any(random);
    let mut scene = Scene::new(random, masks);
    let level = scene.random.below(scene.draft.masks.len());
    let (object, other) = (scene.object_at(level), scene.object_at(level));
    let total = scene.random.between(15, 18);
    let elsewhere = scene.random.between(4, METHOD_STEPS_MAX - 1);
    let before = scene.random.between(0, total - elsewhere);
    let script = (0..elsewhere).map(|_| scene.write()).collect();
    let name = scene.add(other, script);
    let mut script: Vec<Operation> = (0..before).map(|_| scene.write()).collect();
    script.push(Operation::Send {
        a: 0,
        name,
        object: other,
    });
    script.extend((elsewhere + before..total).map(|_| scene.write()));
    if scene.random.one_in(3) {
        script.extend(scene.filler(2));
    }
    if let Some(lower) = scene.object_below(level) {
        let without_effect = vec![scene.write(), scene.write()];
        let name = scene.add(lower, without_effect);
        let send = Operation::Send {
            a: 2,
            name,
            object: lower,
        };
        script.insert(0, send);
    }
    let name = scene.add(object, script);
    scene.start_here_or_below(object, name);
    scene.draft
}

/// 16 writes, a loop, and a write as script step 255, 256 or 257.
pub fn late_write(random: &mut Random) -> Draft {
    let masks = lattices::any(random);
    let mut scene = Scene::new(random, masks);
    let level = scene.random.below(scene.draft.masks.len());
    let object = scene.object_at(level);
    let script = (0..WRITES_MAX).map(|_| scene.write()).collect();
    let writes = scene.add(object, script);
    // Two sends and 16 writes come before the loop, one write after it.
    let steps = scene.random.between(255, 257) - 19;
    let script = loop_of(&mut scene, steps);
    let long = scene.add(object, script);
    let mut script = [writes, long]
        .map(|name| Operation::Send { a: 0, name, object })
        .to_vec();
    script.push(scene.write());
    let name = scene.add(object, script);
    scene.start_here_or_below(object, name);
    scene.draft
}
