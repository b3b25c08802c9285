//! One call of a library, with a look at everything that was lent to it.

use crate::guarded::Guarded;
use crate::library::{Answer, Library};
use crate::limits::*;

#[derive(Clone, Debug)]
pub enum Run {
    DepthFirst,
    /// The depth-first run with a page.
    Page,
    Plain,
    Timetabled(Vec<u8>),
}

impl Run {
    fn has_work(&self) -> bool {
        matches!(self, Run::Plain | Run::Timetabled(_))
    }

    fn has_page(&self) -> bool {
        matches!(self, Run::Page)
    }

    /// Numbers of `place_and_count` that the run asks for.
    pub fn numbers(&self) -> usize {
        match self {
            Run::Page => PLACE_AND_COUNTS_LENGTH,
            _ => PLACE_AND_COUNT_LENGTH,
        }
    }
}

/// The lengths of what a run is lent to write to. Only scheduled runs have a work
/// slice, and only one run a page; its `place_and_counts` has a number more.
#[derive(Clone, Copy, Debug)]
pub struct Lengths {
    pub work: usize,
    pub result: usize,
    pub page: usize,
    pub place_and_count: usize,
}

impl Lengths {
    pub const ENOUGH: Lengths = Lengths {
        work: WORK_LENGTH,
        result: RESULT_LENGTH,
        page: PAGE_LENGTH,
        place_and_count: PLACE_AND_COUNTS_LENGTH,
    };
}

#[derive(Clone, Debug)]
pub enum Request {
    Check,
    Run {
        run: Run,
        clearance: usize,
        lengths: Lengths,
    },
}

impl Request {
    /// A run with just the room that it asks for.
    pub fn run(run: Run, clearance: usize) -> Self {
        let lengths = Lengths {
            place_and_count: run.numbers(),
            ..Lengths::ENOUGH
        };
        Request::Run {
            run,
            clearance,
            lengths,
        }
    }
}

/// An answer, the result bytes written and the page bytes written.
#[derive(Clone, Debug, PartialEq, Eq)]
pub struct Outcome {
    pub answer: Answer,
    pub written: Vec<u8>,
    pub page: Vec<u8>,
}

impl Outcome {
    pub fn refused(answer: Answer) -> Self {
        Outcome {
            answer,
            written: Vec::new(),
            page: Vec::new(),
        }
    }

    pub fn finished(written: Vec<u8>) -> Self {
        Outcome {
            answer: Answer::finished(written.len()),
            written,
            page: Vec::new(),
        }
    }

    pub fn paged(written: Vec<u8>, page: Vec<u8>) -> Self {
        Outcome {
            answer: Answer::paged(written.len(), page.len()),
            written,
            page,
        }
    }

    /// Equal answers, and results and pages that are equal byte by byte.
    pub fn compare(&self, expected: &Outcome) -> Result<(), String> {
        if self.answer != expected.answer {
            return Err(format!("{:?}, expected {:?}", self.answer, expected.answer));
        }
        if self.written != expected.written {
            return Err("results are not equal to the reader".to_string());
        }
        if self.page != expected.page {
            let [page, expected] = [&self.page, &expected.page].map(|page| page.escape_ascii());
            return Err(format!("page {page}, expected {expected}"));
        }
        Ok(())
    }
}

/// Values that buffers and guards hold before a call, more than any of them has.
#[derive(Clone, Copy)]
pub struct Fill<'a> {
    pub bytes: &'a [u8],
    pub words: &'a [u32],
    /// Never 0, as most places and many counts are.
    pub place_and_count: &'a [u32],
    /// Guard values on each side of what is lent.
    pub guard: usize,
}

/// Makes the call and looks at everything that must stay as it was.
pub fn perform(
    library: &dyn Library,
    session: &[u8],
    request: &Request,
    fill: Fill,
) -> Result<Outcome, String> {
    let mut session = Guarded::new(session, fill.bytes, fill.guard);
    let outcome = match request {
        Request::Check => {
            let number = library.check(session.slice());
            Ok(Outcome::refused(Answer::refused(number, 0)))
        }
        Request::Run {
            run,
            clearance,
            lengths,
        } => perform_run(library, &mut session, run, *clearance, *lengths, fill),
    };
    demand(session.is_kept_but(0), "the session changed").and(outcome)
}

fn perform_run(
    library: &dyn Library,
    session: &mut Guarded<u8>,
    run: &Run,
    clearance: usize,
    lengths: Lengths,
    fill: Fill,
) -> Result<Outcome, String> {
    let list: &[u8] = match run {
        Run::Timetabled(list) => list,
        Run::DepthFirst | Run::Page | Run::Plain => &[],
    };
    let mut list = Guarded::new(list, fill.bytes, fill.guard);
    let mut call = |lent: &mut Lent| {
        let (session, result, place_and_count) = (
            session.slice(),
            lent.result.slice(),
            lent.place_and_count.slice(),
        );
        let (work, page) = (lent.work.slice(), lent.page.slice());
        match run {
            Run::Timetabled(_) => {
                let list = list.slice();
                library.run_timetable(session, list, clearance, work, result, place_and_count)
            }
            Run::Plain => library.run_plain(session, clearance, work, result, place_and_count),
            Run::DepthFirst => library.run_depth_first(session, clearance, result, place_and_count),
            Run::Page => library.run_page(session, clearance, result, page, place_and_count),
        }
    };
    let outcome = lend(run, lengths, fill, &mut call);
    demand(list.is_kept_but(0), "the timetable changed").and(outcome)
}

/// What a run may write to. Work slice and page are empty where it has none.
struct Lent<'a> {
    work: Guarded<'a, u32>,
    result: Guarded<'a, u8>,
    page: Guarded<'a, u8>,
    place_and_count: Guarded<'a, u32>,
}

impl<'a> Lent<'a> {
    fn new(run: &Run, lengths: Lengths, fill: Fill<'a>) -> Self {
        let work = if run.has_work() { lengths.work } else { 0 };
        let page = if run.has_page() { lengths.page } else { 0 };
        let bytes = |length: usize| Guarded::new(&fill.bytes[..length], fill.bytes, fill.guard);
        Lent {
            work: Guarded::new(&fill.words[..work], fill.words, fill.guard),
            result: bytes(lengths.result),
            page: bytes(page),
            place_and_count: Guarded::new(
                &fill.place_and_count[..lengths.place_and_count],
                fill.place_and_count,
                fill.guard,
            ),
        }
    }
}

/// Makes a run and looks at what it wrote.
fn lend(
    run: &Run,
    lengths: Lengths,
    fill: Fill,
    call: &mut dyn FnMut(&mut Lent) -> u32,
) -> Result<Outcome, String> {
    let mut lent = Lent::new(run, lengths, fill);
    let number = call(&mut lent);
    let numbers = run.numbers();
    let answer = if lengths.place_and_count < numbers {
        demand(
            lent.place_and_count.is_kept_but(0),
            "place_and_count is too short and changed",
        )?;
        // Only a call with more room tells place and count.
        let enough = Lengths {
            place_and_count: numbers,
            ..lengths
        };
        let more = lend(run, enough, fill, call)?;
        demand(
            more.answer.number == number,
            "the length of place_and_count matters",
        )?;
        more.answer
    } else {
        given(&lent.place_and_count, number, numbers)?
    };
    look_at_buffers(run, &lent, &answer)?;
    Ok(Outcome {
        answer,
        written: lent.result.first(answer.count).to_vec(),
        page: lent.page.first(answer.page_count).to_vec(),
    })
}

/// The answer with what `place_and_count`, which has room, tells of it.
fn given(place_and_count: &Guarded<u32>, number: u32, numbers: usize) -> Result<Answer, String> {
    demand(
        place_and_count.is_kept_but(numbers),
        "place_and_count changed beyond place and counts",
    )?;
    let given = place_and_count.first(numbers);
    Ok(Answer {
        number,
        place: given[0] as usize,
        count: given[1] as usize,
        page_count: given.get(2).map_or(0, |&count| count as usize),
    })
}

/// Nothing changed but what the answer says.
fn look_at_buffers(run: &Run, lent: &Lent, answer: &Answer) -> Result<(), String> {
    for (bytes, count, name) in [
        (&lent.result, answer.count, "result"),
        (&lent.page, answer.page_count, "page"),
    ] {
        demand(
            count <= bytes.length(),
            &format!("more bytes than the {name} buffer has"),
        )?;
        demand(
            answer.number == 0 || count == 0,
            &format!("a refused run has a count of {name} bytes"),
        )?;
        demand(
            bytes.is_kept_but(count),
            &format!("bytes not of the {name} changed"),
        )?;
    }
    // Only questions 12 to 15 are put after the work slice is first touched.
    let has_run = answer.number == 0 || (12..=15).contains(&answer.number);
    let is_cleared = run.has_work() && has_run;
    let cleared = if is_cleared { WORK_LENGTH } else { 0 };
    let work = &lent.work;
    demand(
        cleared <= work.length(),
        "a run with too short a work slice",
    )?;
    let zeros = work.first(cleared).iter().all(|&number| number == 0);
    demand(zeros, "the work slice is not cleared")?;
    demand(work.is_kept_but(cleared), "the work slice changed")
}

fn demand(holds: bool, message: &str) -> Result<(), String> {
    holds.then_some(()).ok_or(message.to_string())
}
