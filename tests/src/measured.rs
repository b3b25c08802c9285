//! What is measured: four sessions and the five entries, the timetabled run with
//! two lists, the page also by a formatter apart.

use crate::library::{Answer, Library};
use crate::limits::{PAGE_LENGTH, PLACE_AND_COUNTS_LENGTH, RESULT_LENGTH, WORK_LENGTH};
use crate::random::Random;
use crate::reference::Session;
use crate::request::Outcome;
use crate::sessions::Fixed;
use crate::tally::Tally;
use crate::tuned::page;
use crate::{sessions, timetables};

/// The sessions, each by an argument's name and a title.
pub const SESSIONS: [(&str, &str, Fixed); 4] = [
    ("w", "session W", sessions::example_w),
    ("typical", "typical", sessions::typical),
    ("forks", "largest, many forks", sessions::largest_by_forks),
    ("steps", "largest, many steps", sessions::largest_by_steps),
];

pub type Entry = fn(&dyn Library, &Case, &mut Buffers) -> u32;

/// The entries by name.
pub const ENTRIES: [(&str, Entry); 7] = [
    (CHECK, check),
    ("plain", plain),
    ("timetabled", timetabled),
    ("timetabled-early", timetabled_early),
    ("depth-first", depth_first),
    (PAGE, paged),
    (PAGE_APART, paged_apart),
];

/// The entry without result.
pub const CHECK: &str = "check";

/// The entry with a page.
pub const PAGE: &str = "page";

/// The depth-first run, and then the tuned variant's page of the records that it
/// wrote.
pub const PAGE_APART: &str = "page-apart";

/// A session, two finishing lists and the clearance of its top level.
pub struct Case {
    pub session: Vec<u8>,
    /// Each level steps when those below it are done.
    pub timetable: Vec<u8>,
    /// Upper levels step as early as they may.
    pub early: Vec<u8>,
    pub clearance: usize,
}

impl Case {
    /// Of an accepted session.
    pub fn new(bytes: Vec<u8>) -> Self {
        let session = Session::read(&bytes);
        let top = session.lattice.top();
        Case {
            timetable: timetables::conservative(&mut Random::new(1), &session, &mut Tally::idle()),
            early: timetables::depth_first(&session),
            clearance: top.expect("levels with joins have a top"),
            session: bytes,
        }
    }
}

/// The buffers that are lent.
pub struct Buffers {
    work: Vec<u32>,
    result: Vec<u8>,
    page: Vec<u8>,
    place_and_count: [u32; PLACE_AND_COUNTS_LENGTH],
}

impl Buffers {
    pub fn cleared() -> Self {
        Buffers {
            work: vec![0; WORK_LENGTH],
            result: vec![0; RESULT_LENGTH],
            page: vec![0; PAGE_LENGTH],
            place_and_count: [0; PLACE_AND_COUNTS_LENGTH],
        }
    }

    /// What a call that gave this number did.
    pub fn outcome(&self, number: u32) -> Outcome {
        let [place, count, page_count] = self.place_and_count.map(|number| number as usize);
        Outcome {
            answer: Answer {
                number,
                place,
                count,
                page_count,
            },
            written: self.result[..count].to_vec(),
            page: self.page[..page_count].to_vec(),
        }
    }
}

fn check(library: &dyn Library, case: &Case, _: &mut Buffers) -> u32 {
    library.check(&case.session)
}

fn plain(library: &dyn Library, case: &Case, lent: &mut Buffers) -> u32 {
    library.run_plain(
        &case.session,
        case.clearance,
        &mut lent.work,
        &mut lent.result,
        &mut lent.place_and_count,
    )
}

fn timetabled(library: &dyn Library, case: &Case, lent: &mut Buffers) -> u32 {
    run_timetable(library, case, &case.timetable, lent)
}

fn timetabled_early(library: &dyn Library, case: &Case, lent: &mut Buffers) -> u32 {
    run_timetable(library, case, &case.early, lent)
}

fn run_timetable(library: &dyn Library, case: &Case, list: &[u8], lent: &mut Buffers) -> u32 {
    library.run_timetable(
        &case.session,
        list,
        case.clearance,
        &mut lent.work,
        &mut lent.result,
        &mut lent.place_and_count,
    )
}

fn depth_first(library: &dyn Library, case: &Case, lent: &mut Buffers) -> u32 {
    library.run_depth_first(
        &case.session,
        case.clearance,
        &mut lent.result,
        &mut lent.place_and_count,
    )
}

fn paged(library: &dyn Library, case: &Case, lent: &mut Buffers) -> u32 {
    library.run_page(
        &case.session,
        case.clearance,
        &mut lent.result,
        &mut lent.page,
        &mut lent.place_and_count,
    )
}

fn paged_apart(library: &dyn Library, case: &Case, lent: &mut Buffers) -> u32 {
    let number = depth_first(library, case, lent);
    let [_, count, page_count] = &mut lent.place_and_count;
    let result = &lent.result[..*count as usize];
    *page_count = page::write(result, &mut lent.page) as u32;
    number
}
