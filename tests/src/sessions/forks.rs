//! Shapes around forks: how many a manager makes, how many a level keeps, how
//! deep they nest, and at which levels they are made.

use super::draft::Draft;
use super::lattices;
use super::scene::{counted, Scene, WORK_NAMES};
use super::work::work_everywhere;
use crate::limits::*;
use crate::random::Random;
use crate::record::Operation;
use std::cmp::Reverse;

/// A manager that makes 14 to 17 forks at levels above, some of them from
/// another frame, with writes between them and of the last replies.
pub fn many_forks(random: &mut Random) -> Draft {
    let masks = match random.one_in(3) {
        true => lattices::any(random),
        false => lattices::branching(random),
    };
    let mut scene = Scene::new(random, masks);
    work_everywhere(&mut scene, 3);
    let level = scene.lowest_level();
    let (object, other) = (scene.object_at(level), scene.object_at(level));
    let total = scene.random.between(14, 17);
    let elsewhere = scene.random.between(4, 12);
    let mut script = sends_up(&mut scene, level, elsewhere - 1);
    script.extend(watched_up(&mut scene, level));
    let name = scene.add(other, script);
    let mut script = vec![Operation::Send {
        a: 0,
        name,
        object: other,
    }];
    script.extend(sends_up(&mut scene, level, total - elsewhere - 1));
    script.extend(watched_up(&mut scene, level));
    while script.len() < METHOD_STEPS_MAX && scene.random.one_in(2) {
        let place = scene.random.below(script.len() + 1);
        script.insert(place, scene.write());
    }
    scene.start_with(object, script);
    scene.draft
}

fn sends_up(scene: &mut Scene, level: usize, count: usize) -> Vec<Operation> {
    (0..count)
        .filter_map(|_| scene.object_above(level))
        .collect::<Vec<u8>>()
        .into_iter()
        .map(|object| scene.send_work(object))
        .collect()
}

/// A send to a level above of which the reply shows, if there is one.
fn watched_up(scene: &mut Scene, level: usize) -> Vec<Operation> {
    let name = scene.random.byte_below(WORK_NAMES);
    match scene.object_above(level) {
        Some(object) => scene.watched_send(name, object),
        None => Vec::new(),
    }
}

/// A level that 31 to 34 forks reach, or many more: from the root, and with
/// smaller stamps but later from the root's forks at a level between. The root's
/// last fork may be above that level.
pub fn crowd(random: &mut Random) -> Draft {
    let levels = random.between(3, LEVELS_MAX);
    let masks = match random.one_in(3) {
        true => lattices::chain(random, levels),
        false => lattices::branching(random),
    };
    let mut scene = Scene::new(random, masks);
    work_everywhere(&mut scene, 3);
    let low = scene.lowest_level();
    let top = scene.top_level();
    let between = scene.object_where(|lattice, level| {
        lattice.strictly_dominates(level, low) && lattice.strictly_dominates(top, level)
    });
    let middle = between.expect("a third level is between the lowest and the top");
    let middle_level = scene.level_of(middle);
    let high = scene.object_above(middle_level).unwrap_or(middle);
    let total = scene.random.pick(&[31, 32, 32, 33, 33, 34, 45, 100]);
    let managers = scene.random.between(3, 10);
    let each = (total / managers).min(FORKS_MAX as usize);
    let direct = (total - managers * each).min(FORKS_MAX as usize - managers);

    let name = scene.random.byte_below(WORK_NAMES);
    let to_high = send(name, high);
    let mut script = repeated(&mut scene, each - 1, to_high);
    script.extend(scene.watched_send(name, high));
    let to_middle = send(scene.add(middle, script), middle);
    let mut script = vec![to_middle; managers];
    script.extend(vec![to_high; direct]);
    scene.random.shuffle(&mut script);
    let high_level = scene.level_of(high);
    if let Some(upper) = scene.object_above(high_level) {
        script.push(send(name, upper));
    }
    let object = scene.object_at(low);
    scene.start_with(object, script);
    scene.draft
}

fn send(name: u8, object: u8) -> Operation {
    Operation::Send { a: 0, name, object }
}

/// An operation `count` times, up to 14: one after the other, or in a loop.
/// Leaves room for three more steps.
fn repeated(scene: &mut Scene, count: usize, operation: Operation) -> Vec<Operation> {
    if count + 3 > METHOD_STEPS_MAX || scene.random.one_in(2) {
        counted(count as u32, vec![operation])
    } else {
        vec![operation; count]
    }
}

/// Each level's work sends to the next level, or to two: forks nested to the top.
pub fn tower(random: &mut Random) -> Draft {
    let levels = random.pick(&[4, 6, 8, 8, 8]);
    let masks = lattices::chain(random, levels);
    let mut scene = Scene::new(random, masks);
    let mut above: Option<(u8, u8)> = None;
    for level in downward(&scene) {
        let object = scene.object_at(level);
        let mut script = scene.filler(2);
        if let Some((object, name)) = above {
            let a = scene.random.byte_below(REGISTERS);
            for _ in 0..scene.random.pick(&[1, 1, 1, 2, 3]) {
                script.push(Operation::Send { a, name, object });
                script.push(scene.write());
            }
        }
        if let Some(lower) = scene.object_below(level) {
            let get = vec![scene.read(1), Operation::Quit { a: 1 }];
            let name = scene.add(lower, get);
            script.push(Operation::Send {
                a: 0,
                name,
                object: lower,
            });
        }
        script.push(scene.write());
        let name = scene.add(object, script);
        above = Some((object, name));
    }
    let (object, name) = above.expect("there are levels");
    scene.start(object, name);
    scene.draft
}

/// The levels of a chain from the top down.
fn downward(scene: &Scene) -> Vec<usize> {
    let mut order: Vec<usize> = scene.lattice.levels().collect();
    order.sort_by_key(|&level| Reverse(scene.draft.masks[level].count_ones()));
    order
}

/// Managers of the top level whose methods have so many steps, or one more: the
/// mean of their steps has any remainder, often the largest there is. The root
/// makes some of the forks, managers between the others.
pub fn uneven(random: &mut Random) -> Draft {
    let levels = random.between(3, LEVELS_MAX);
    let masks = lattices::chain(random, levels);
    let mut scene = Scene::new(random, masks);
    let order = downward(&scene);
    let (top, low) = (order[0], order[levels - 1]);
    let middle = scene.random.pick(&order[1..levels - 1]);
    let [top, middle, low] = [top, middle, low].map(|level| scene.object_at(level));

    let steps = scene.random.below(METHOD_STEPS_MAX);
    let [short, long] = [steps, steps + 1].map(|steps| {
        let script = (0..steps).map(|_| scene.quiet(0)).collect();
        send(scene.add(top, script), top)
    });
    let any = scene.random.between(2, KEPT_MAX);
    let managers = scene.random.pick(&[any, KEPT_MAX, KEPT_MAX]);
    let any = scene.random.below(managers);
    let longer = scene.random.pick(&[any, managers - 1]);
    let mut sends = vec![short; managers - longer];
    sends.extend(vec![long; longer]);
    scene.random.shuffle(&mut sends);

    let direct = sends.split_off(sends.len() - managers % 5);
    let mut script: Vec<Operation> = sends
        .chunks(FORKS_MAX as usize)
        .map(|sends| send(scene.add(middle, sends.to_vec()), middle))
        .collect();
    script.extend(direct);
    scene.start_with(low, script);
    scene.draft
}

/// As many managers as a session can have: a chain of 8 levels, and on each level
/// every manager makes 15 forks at the next.
pub fn fullest(random: &mut Random) -> Draft {
    let masks = lattices::chain(random, LEVELS_MAX);
    let mut scene = Scene::new(random, masks);
    let mut above: Option<Operation> = None;
    for level in downward(&scene) {
        let object = scene.object_at(level);
        let mut script = Vec::new();
        if let Some(send) = above {
            let mut body = vec![send];
            if scene.random.one_in(2) {
                body.insert(0, scene.write());
            }
            script = counted(FORKS_MAX, body);
        }
        script.extend(scene.filler(3));
        script.push(scene.write());
        let name = scene.add(object, script);
        scene.start(object, name);
        above = Some(send(name, object));
    }
    scene.draft
}

/// A frame below its manager's level that sends to levels incomparable with the
/// manager's: the join lies above both. Its sender writes what it replies, and
/// sends to such a level itself.
pub fn join_above(random: &mut Random) -> Draft {
    let masks = lattices::branching(random);
    let mut scene = Scene::new(random, masks);
    work_everywhere(&mut scene, 4);
    let low = scene.lowest_level();
    let lower = scene.object_at(low);
    let Some(upper) = scene.object_above(low) else {
        return scene.draft;
    };
    let count = scene.random.between(1, 6);
    let mut script = sends_up(&mut scene, low, count);
    script.extend(scene.filler(2));
    let name = scene.random.byte_below(WORK_NAMES);
    let receiver = scene.object_above(low).unwrap_or(upper);
    let (a, send) = scene.numbered_send(name, receiver);
    script.extend(send);
    script.push(Operation::Quit { a });
    let name = scene.add(lower, script);
    let mut script = scene.filler(2);
    for _ in 0..scene.random.between(1, 2) {
        script.extend(scene.watched_send(name, lower));
    }
    let level = scene.level_of(upper);
    let aside = scene.object_where(|lattice, other| {
        !lattice.dominates(level, other) && !lattice.dominates(other, level)
    });
    if let Some(aside) = aside {
        let name = scene.random.byte_below(WORK_NAMES);
        script.extend(scene.watched_send(name, aside));
    }
    let name = scene.add(upper, script);
    scene.start_here_or_below(upper, name);
    scene.draft
}
