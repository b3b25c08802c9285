//! Shapes around objects that are made and withdrawn.

use super::draft::Draft;
use super::lattices;
use super::scene::Scene;
use crate::limits::*;
use crate::random::Random;
use crate::record::Operation::{self, *};
use crate::reference::made_by;

// The methods that objects have in all these shapes, and made objects with them.
/// Replies a field.
const GET: u8 = 0;
/// Withdraws the object, goes on and replies.
const LEAVE: u8 = 1;
/// Makes objects and sends.
const MAKE: u8 = 2;

/// Objects of all levels make others, send to them, read them from above and withdraw
/// them.
pub fn life(random: &mut Random) -> Draft {
    let mut scene = scene(random);
    let level = match scene.random.one_in(3) {
        true => scene.random.below(scene.draft.masks.len()),
        false => scene.lowest_level(),
    };
    let object = scene.object_at(level);
    let length = scene.random.between(5, 14);
    let script = (0..length).map(|_| life_step(&mut scene, object)).collect();
    scene.start_with(object, script);
    scene.draft
}

/// Levels with objects that have the methods above.
fn scene(random: &mut Random) -> Scene<'_> {
    let masks = match random.below(4) {
        0 => lattices::any(random),
        1 => {
            let levels = random.between(2, 4);
            lattices::chain(random, levels)
        }
        _ => lattices::branching(random),
    };
    let mut scene = Scene::new(random, masks);
    for object in 0..scene.draft.objects.len() as u8 {
        if !scene.has_room() {
            break;
        }
        let get = vec![scene.read(1), Quit { a: 1 }];
        scene.draft.put(object, GET, get);
        let leave = leave(&mut scene, 2);
        scene.draft.put(object, LEAVE, leave);
        let length = scene.random.between(1, 5);
        let make = (0..length).map(|_| life_step(&mut scene, object)).collect();
        scene.draft.put(object, MAKE, make);
    }
    scene
}

fn send(a: u8, name: u8, object: u8) -> Operation {
    Send { a, name, object }
}

/// A WITHDRAW, up to so many steps of what a withdrawn object may try, and a reply.
fn leave(scene: &mut Scene, most: usize) -> Vec<Operation> {
    let (a, n) = (scene.random.byte_below(REGISTERS), scene.random.number());
    let mut script = vec![Set { a, n }, Withdraw];
    for _ in 0..scene.random.below(most + 1) {
        let step = match scene.random.below(5) {
            0 => scene.read(a),
            1 => Write { a, field: 0 },
            2 => Create { a },
            3 => Withdraw,
            _ => scene.write(),
        };
        script.push(step);
    }
    if scene.random.one_in(2) {
        script.push(Quit { a });
    }
    script
}

/// A step of an object that makes others.
fn life_step(scene: &mut Scene, object: u8) -> Operation {
    let level = scene.level_of(object);
    let a = scene.random.byte_below(REGISTERS);
    let name = scene.random.pick(&[GET, GET, LEAVE, MAKE]);
    match scene.random.below(14) {
        0..=2 => Create { a },
        3 => scene.write(),
        4 => {
            let n = scene.random.number();
            Set { a, n }
        }
        5 | 6 => send(a, name, scene.owned_by(level)),
        7 | 8 => {
            let lower = scene.object_below(level).unwrap_or(object);
            let level = scene.level_of(lower);
            let owned = scene.owned_by(level);
            let receiver = scene.random.pick(&[lower, owned, owned]);
            send(a, GET, receiver)
        }
        9..=11 => {
            let upper = scene.object_above(level).unwrap_or(object);
            let level = scene.level_of(upper);
            let owned = scene.owned_by(level);
            let receiver = scene.random.pick(&[upper, upper, owned]);
            let name = scene.random.pick(&[LEAVE, MAKE, MAKE]);
            send(a, name, receiver)
        }
        12 => {
            let level = scene.random.below(scene.draft.masks.len());
            send(a, name, scene.owned_by(level))
        }
        _ => {
            let other = scene.object_at(level);
            send(a, name, other)
        }
    }
}

/// The root makes objects, changes and withdraws them and itself, and forks managers in
/// between that read them from above: each sees what was there at its fork.
pub fn seen(random: &mut Random) -> Draft {
    let mut scene = scene(random);
    let low = scene.lowest_level();
    let object = scene.object_at(low);
    let upper = scene.object_above(low).unwrap_or(object);
    let mut script = Vec::new();
    for _ in 0..scene.random.between(1, 3) {
        let owned = scene.owned_by(low);
        let receiver = scene.random.pick(&[object, owned, owned]);
        script.extend(scene.watched_send(GET, receiver));
    }
    let look = send(0, scene.add(upper, script), upper);
    // A write of a made object, by a method of its maker's.
    let field = scene.random.byte_below(FIELDS);
    let set = scene.add(object, vec![Write { a: 0, field }]);
    let mut script = Vec::new();
    for _ in 0..scene.random.between(3, 7) {
        let owned = scene.owned_by(low);
        let step = match scene.random.below(8) {
            0..=3 => Create { a: 2 },
            4 | 5 => send(1, LEAVE, owned),
            6 => send(3, set, owned),
            _ => send(1, LEAVE, object),
        };
        script.push(step);
        script.push(look);
    }
    scene.start_with(object, script);
    scene.draft
}

/// One to five CREATEs at each of eight levels.
pub fn everywhere(random: &mut Random) -> Draft {
    let masks = match random.one_in(2) {
        true => lattices::chain(random, LEVELS_MAX),
        false => lattices::bounded(random, LEVELS_MAX),
    };
    let mut scene = Scene::new(random, masks);
    let low = scene.lowest_level();
    let mut forks = Vec::new();
    for level in scene.lattice.levels() {
        let object = scene.object_at(level);
        let n = scene.random.number();
        let mut script = vec![Set { a: 1, n }];
        let made = scene.random.between(1, MADE_MAX + 1);
        script.extend(vec![Create { a: 2 }; made]);
        script.extend(scene.filler(1));
        if scene.random.one_in(8) {
            script.push(Withdraw);
        }
        let name = scene.add(object, script);
        match level == low {
            true => scene.start(object, name),
            false => forks.push(send(0, name, object)),
        }
    }
    // The root's method makes its own objects first.
    let root = (scene.draft.root_object, scene.draft.root_name);
    let mut script = scene.draft.methods[&root].clone();
    scene.random.shuffle(&mut forks);
    script.extend(forks);
    scene.draft.put(root.0, root.1, script);
    scene.draft
}

/// 12 to 16 writes, some of them by CREATEs, and then a CREATE, a WITHDRAW or a WRITE:
/// each count meets each of them. Often one more step shows what it left, or the next
/// manager of the level makes an object.
pub fn counts(random: &mut Random) -> Draft {
    let mut scene = scene(random);
    let level = scene.random.below(scene.draft.masks.len());
    let object = scene.object_at(level);
    let total = scene.random.pick(&[12, 13, 14, 14, 15, 15, 16, 16]);
    // A fourth CREATE uses up the level's numbers.
    let any = scene.random.between(1, total / CREATE_WRITES as usize);
    let made = scene.random.pick(&[any, any.min(3), any.min(3)]);
    let mut script = vec![Create { a: 0 }; made];
    let writes = total - made * CREATE_WRITES as usize;
    script.extend((0..writes).map(|_| scene.write()));
    scene.random.shuffle(&mut script);
    let a = scene.random.byte_below(REGISTERS);
    let any = scene.write();
    let create = Create { a };
    let last = scene.random.pick(&[create, create, create, Withdraw, any]);
    script.push(last);
    if scene.random.one_in(2) && script.len() < METHOD_STEPS_MAX {
        let more = scene.random.pick(&[any, Quit { a }, Withdraw]);
        script.push(more);
    }
    let name = scene.add(object, script);
    match scene.object_below(level) {
        Some(sender) if !scene.random.one_in(4) => {
            let next = vec![Create { a }, Write { a, field: 0 }];
            let next = scene.add(object, next);
            let forks = [name, next].map(|name| send(0, name, object));
            scene.start_with(sender, forks.to_vec());
        }
        _ => scene.start_here_or_below(object, name),
    }
    scene.draft
}

/// Managers of one level that make objects, one or two each, and withdraw some: the
/// level's numbers are soon used up, and a field shows what the last CREATEs gave.
pub fn used_up(random: &mut Random) -> Draft {
    let mut scene = scene(random);
    let low = scene.lowest_level();
    let object = scene.object_at(low);
    let maker = scene.object_above(low).unwrap_or(object);
    let level = scene.level_of(maker);
    let (a, n) = (scene.random.byte_below(REGISTERS), scene.random.number());
    let mut script = vec![Set { a, n }, Create { a }];
    if scene.random.one_in(2) {
        script.push(Create { a });
    }
    let field = scene.random.byte_below(FIELDS);
    script.push(Write { a, field });
    if scene.random.one_in(2) {
        script.push(send(a, LEAVE, scene.owned_by(level)));
    }
    let name = scene.add(maker, script);
    let mut script = Vec::new();
    for _ in 0..scene.random.between(3, 8) {
        script.push(send(0, name, maker));
        if scene.random.one_in(4) {
            let name = scene.random.pick(&[GET, MAKE]);
            script.push(send(1, name, scene.owned_by(level)));
        }
    }
    scene.start_with(object, script);
    scene.draft
}

/// A frame waits while another withdraws its object, which is of the session or made;
/// then it tries everything. Often all writes are used up then.
pub fn withdrawn(random: &mut Random) -> Draft {
    let mut scene = scene(random);
    let level = scene.random.below(scene.draft.masks.len());
    let object = scene.object_at(level);
    let (a, n) = (scene.random.byte_below(REGISTERS), scene.random.number());
    // A made object has the methods of the one that makes it.
    let is_made = scene.random.one_in(2);
    let (receiver, sender) = match is_made {
        true => (made_by(level).start, object),
        false => (object, scene.object_at(level)),
    };
    let before = scene.random.pick(&[0, 0, 3, 8]);
    let mut script: Vec<Operation> = (0..before).map(|_| scene.write()).collect();
    script.extend([send(1, LEAVE, receiver), Set { a, n }]);
    script.extend(tries(&mut scene, a, receiver));
    script.push(Quit { a });
    let name = scene.add(object, script);
    // The sender shows what that frame replied.
    let mut script = Vec::new();
    if is_made || scene.random.one_in(2) {
        script.push(Create { a: 1 });
    }
    let fits = WRITES_MAX as usize - before - 1 - 4 * script.len();
    if scene.random.one_in(2) {
        script.extend((0..fits.min(8)).map(|_| scene.write()));
    }
    script.push(send(a, name, receiver));
    script.push(Write { a, field: 1 });
    script.push(send(0, MAKE, receiver));
    let name = scene.add(sender, script);
    scene.start_here_or_below(sender, name);
    scene.draft
}

/// One to three steps that a withdrawn object tries, with a register of a number.
fn tries(scene: &mut Scene, a: u8, receiver: u8) -> Vec<Operation> {
    let tries = [
        scene.read(a),
        scene.read(a),
        Create { a },
        Withdraw,
        Write { a, field: 0 },
        send(a, GET, receiver),
    ];
    let count = scene.random.between(1, 3);
    (0..count).map(|_| scene.random.pick(&tries)).collect()
}

/// Messages up, down and aside to numbers that may be of no object yet or no more: some
/// are made or withdrawn between a fork and its start.
pub fn absent(random: &mut Random) -> Draft {
    let mut scene = scene(random);
    let low = scene.lowest_level();
    let object = scene.object_at(low);
    let upper = scene.object_above(low).unwrap_or(object);
    let level = scene.level_of(upper);
    let (a, n) = (scene.random.byte_below(REGISTERS), scene.random.number());
    let make = vec![Set { a: 1, n }, Create { a }, Write { a, field: 0 }];
    let make = send(a, scene.add(upper, make), upper);
    let owned = scene.owned_by(level);
    let aside = scene.random.below(scene.draft.masks.len());
    let aside = scene.owned_by(aside);
    let down = down(&mut scene, object, owned, aside);
    let ask = vec![
        Set { a, n },
        send(a, down, object),
        Write { a, field: 1 },
        send(2, GET, aside),
    ];
    let ask = send(a, scene.add(upper, ask), upper);
    let choices = [
        make,
        make,
        ask,
        send(0, MAKE, owned),
        send(0, GET, owned),
        send(0, LEAVE, owned),
        send(0, LEAVE, upper),
        send(0, GET, aside),
        Create { a: 2 },
    ];
    let length = scene.random.between(3, 12);
    let script = (0..length).map(|_| scene.random.pick(&choices)).collect();
    scene.start_with(object, script);
    scene.draft
}

/// Adds a method of an object at the lowest level that, in a manager above it, tries what
/// has no effect there and sends up and aside; gives its name.
fn down(scene: &mut Scene, object: u8, owned: u8, aside: u8) -> u8 {
    let (a, n) = (scene.random.byte_below(2), scene.random.number());
    let tried = scene.random.pick(&[send(a, GET, owned), Create { a }]);
    let script = vec![
        send(2, MAKE, aside),
        Withdraw,
        Set { a, n },
        tried,
        Quit { a },
    ];
    scene.add(object, script)
}
