//! Every table of up to four levels in which each level dominates itself: the library
//! must answer as the reference and the tuned variant do, and accept as many tables of
//! each size as document 02 says that there are.

use crate::library::Library;
use crate::limits::FIELDS;
use crate::reference::Reference;
use crate::sessions::Draft;
use crate::tuned::Tuned;

/// How many tables of 1, 2, 3 and 4 levels are lattices.
const LATTICES: [usize; 4] = [1, 2, 6, 36];

/// Tries them all and says how many there are.
pub fn all(library: &dyn Library) -> Result<usize, String> {
    let mut tried = 0;
    for (levels, lattices) in (1..).zip(LATTICES) {
        let mut accepted = 0;
        for masks in tables(levels) {
            accepted += usize::from(agreed(library, &masks)? == 0);
            tried += 1;
        }
        if accepted != lattices {
            return Err(format!(
                "{accepted} tables of {levels} levels accepted, not {lattices}"
            ));
        }
    }
    Ok(tried)
}

/// The tables of so many levels in which each level dominates itself.
fn tables(levels: usize) -> impl Iterator<Item = Vec<u8>> {
    let full = (1 << levels) - 1;
    let masks = move |bits: u32| -> Vec<u8> {
        let mask = |level| (bits >> (levels * level) & full) as u8;
        (0..levels).map(mask).collect()
    };
    let all = (0..1 << (levels * levels)).map(masks);
    all.filter(|masks| (0..).zip(masks).all(|(level, mask)| mask >> level & 1 == 1))
}

/// What all answer to a session with these levels and an object.
fn agreed(library: &dyn Library, masks: &[u8]) -> Result<u32, String> {
    let draft = Draft {
        masks: masks.to_vec(),
        objects: vec![(0, [None; FIELDS])],
        ..Draft::default()
    };
    let session = draft.bytes();
    let libraries: [&dyn Library; 3] = [&Reference, &Tuned, library];
    let answers = libraries.map(|library| library.check(&session));
    let [number, ..] = answers;
    match answers == [number; 3] {
        true => Ok(number),
        false => Err(format!(
            "masks {masks:02x?}: reference, tuned variant and library answer {answers:?}"
        )),
    }
}
