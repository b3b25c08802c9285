//! A deterministic generator of sessions, valid and damaged, and fixed sessions.

mod damage;
mod draft;
mod fixed;
mod forks;
mod lattices;
mod managers;
mod objects;
pub mod rules;
mod scene;
mod sums;
mod work;

pub use damage::damaged;
pub use draft::Draft;
pub use fixed::{example_w, largest_by_forks, largest_by_steps, typical, Fixed, FIXED};

use crate::limits::*;
use crate::random::Random;
use crate::record::Operation;
use crate::reference::made_by;

/// A session that every question accepts.
pub fn valid(random: &mut Random) -> Vec<u8> {
    valid_draft(random).bytes()
}

/// Those that are drawn alike, some of them twice or more.
const SHAPES: [fn(&mut Random) -> Draft; 41] = [
    managers::recursion,
    managers::path,
    managers::upward_inside,
    managers::long_loop,
    managers::writes,
    managers::late_write,
    forks::many_forks,
    forks::many_forks,
    forks::crowd,
    forks::crowd,
    forks::tower,
    forks::uneven,
    forks::uneven,
    forks::join_above,
    forks::join_above,
    work::versions,
    work::versions,
    work::siblings,
    work::siblings,
    work::busy,
    work::busy,
    objects::life,
    objects::life,
    objects::life,
    objects::seen,
    objects::seen,
    objects::everywhere,
    objects::counts,
    objects::counts,
    objects::counts,
    objects::used_up,
    objects::withdrawn,
    objects::withdrawn,
    objects::withdrawn,
    objects::absent,
    objects::absent,
    sums::sums,
    sums::sums,
    sums::ended_loop,
    any_steps,
    any_steps,
];

fn valid_draft(random: &mut Random) -> Draft {
    // Largest sessions are slow, so they are fewer.
    if random.one_in(20) {
        return work::largest(random);
    }
    if random.one_in(70) {
        return forks::fullest(random);
    }
    let shape = random.pick(&SHAPES);
    shape(random)
}

/// Sizes, levels and steps at random. Few of its messages meet a method.
fn any_steps(random: &mut Random) -> Draft {
    let masks = lattices::any(random);
    let objects = random.size(1, OBJECTS_MAX);
    let steps = random.size(0, STEP_RECORDS_MAX);
    let longest = random.size(1, METHOD_STEPS_MAX);
    sized(random, masks, objects, steps, longest)
}

/// A session with the given masks and sizes, valid if these are.
fn sized(
    random: &mut Random,
    masks: Vec<u8>,
    objects: usize,
    steps: usize,
    longest: usize,
) -> Draft {
    let levels = masks.len();
    let mut draft = Draft {
        masks,
        root_object: random.byte_below(objects),
        root_name: random.byte_below(NAMES),
        root_parameter: random.value(),
        ..Draft::default()
    };
    for _ in 0..objects {
        let fields = [(); FIELDS].map(|()| random.value());
        draft.objects.push((random.byte_below(levels), fields));
    }
    let mut lengths = method_lengths(random, steps, longest);
    let steps = Steps {
        objects,
        levels,
        with_objects: random.one_in(2),
    };
    // Each pair of object and name becomes a method with the chance that spreads
    // the methods evenly over the pairs.
    let pairs = NAMES * objects;
    lengths.truncate(pairs);
    for pair in 0..pairs {
        if random.below(pairs - pair) < lengths.len() {
            let length = lengths.pop().unwrap_or(0);
            let script = (0..length).map(|_| steps.any(random, length));
            let key = ((pair / NAMES) as u8, (pair % NAMES) as u8);
            draft.methods.insert(key, script.collect());
        }
    }
    draft
}

/// Lengths of methods, `steps` in all.
fn method_lengths(random: &mut Random, steps: usize, longest: usize) -> Vec<usize> {
    let same_length = random.one_in(4);
    let mut lengths = Vec::new();
    let mut left = steps;
    while left > 0 {
        let length = if same_length {
            longest
        } else {
            random.between(1, longest)
        };
        lengths.push(length.min(left));
        left -= length.min(left);
    }
    lengths
}

/// What the steps of a session may name.
struct Steps {
    objects: usize,
    levels: usize,
    /// Whether some of them make and withdraw objects.
    with_objects: bool,
}

impl Steps {
    /// A step of a method of so many.
    fn any(&self, random: &mut Random, length: usize) -> Operation {
        let a = random.byte_below(REGISTERS);
        match random.below(if self.with_objects { 9 } else { 7 }) {
            0 => Operation::Set {
                a,
                n: random.number(),
            },
            1 => Operation::Add {
                a,
                b: random.byte_below(REGISTERS),
            },
            // Often the last target allowed, the number of steps.
            2 => Operation::Jump {
                a,
                target: random.size(0, length) as u8,
            },
            3 => Operation::Read {
                a,
                field: random.byte_below(FIELDS),
            },
            4 => Operation::Write {
                a,
                field: random.byte_below(FIELDS),
            },
            5 => Operation::Send {
                a,
                name: random.byte_below(NAMES),
                object: self.receiver(random),
            },
            6 => Operation::Quit { a },
            7 => Operation::Create { a },
            _ => Operation::Withdraw,
        }
    }

    /// An object of the session or, sometimes, a number that a level owns.
    fn receiver(&self, random: &mut Random) -> u8 {
        if self.with_objects && random.one_in(3) {
            let numbers = made_by(random.below(self.levels));
            return random.pick(&numbers.collect::<Vec<u8>>());
        }
        random.byte_below(self.objects)
    }
}
