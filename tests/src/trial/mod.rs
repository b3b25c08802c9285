//! Generated calls of the library: its runs are compared with each other, its
//! answers with the reference.

mod objects;
mod page;

use crate::clearances;
use crate::counts::Counts;
use crate::guarded::GUARD;
use crate::library::Library;
use crate::limits::*;
use crate::random::Random;
use crate::reference::{self, Reference, Session};
use crate::request::{perform, Fill, Lengths, Outcome, Request, Run};
use crate::sessions::rules::{self, Rule};
use crate::tally::{Event, Tally};
use crate::tuned::Tuned;
use crate::vectors::to_hex;
use crate::{sessions, timetables};

/// More values than any lent buffer has, and room to start at several places.
const POOL: usize = 12_000;
const STARTS: usize = 1_000;

/// What one worker needs for any number of cases.
pub struct Trial<'a> {
    library: &'a dyn Library,
    seed: u64,
    random: Random,
    bytes: Vec<u8>,
    /// Random numbers other than 0, small ones, zeros and ones throughout.
    words: [Vec<u32>; 4],
    rules: Vec<Rule>,
    pub counts: Counts,
}

impl<'a> Trial<'a> {
    pub fn new(library: &'a dyn Library, seed: u64) -> Self {
        let mut random = Random::new(seed);
        let rules = rules::all();
        Trial {
            library,
            seed,
            bytes: (0..POOL).map(|_| random.byte_below(256)).collect(),
            words: [
                (0..POOL).map(|_| random.bits() as u32 | 1).collect(),
                (0..POOL).map(|_| random.below(32) as u32).collect(),
                vec![0; POOL],
                vec![u32::MAX; POOL],
            ],
            random,
            counts: Counts::new(&rules),
            rules,
        }
    }

    /// One case: a valid session and a damaged one.
    pub fn case(&mut self, case: u64) -> Result<(), String> {
        self.random = Random::of_case(self.seed, case);
        let session = sessions::valid(&mut self.random);
        self.session("valid", &session, Some(0))?;
        // In half of the cases the rules get broken, each in its turn.
        if case.is_multiple_of(2) {
            let number = (case / 2) as usize % self.rules.len();
            self.counts.add_rule(number);
            let rule = &self.rules[number];
            let session = rule.broken(&mut self.random);
            let (name, question) = (rule.name.clone(), rule.question);
            self.session(&name, &session, Some(question))
        } else {
            let session = sessions::damaged(&mut self.random);
            self.session("damaged", &session, None)
        }
    }

    /// Calls about one session, for which the check's answer may be known.
    pub fn session(
        &mut self,
        name: &str,
        session: &[u8],
        expected: Option<u32>,
    ) -> Result<(), String> {
        let number = reference::check(session);
        self.counts.add_levels(session, number);
        let tried = if expected.is_some_and(|expected| expected != number) {
            Err(format!("the reference's check answers {number}"))
        } else if number == 0 {
            self.accepted(session)
        } else {
            self.refused(session)
        };
        tried.map_err(|message| format!("{message}\n{name}, session {}", to_hex(session)))
    }

    fn call(
        &mut self,
        library: &dyn Library,
        session: &[u8],
        request: &Request,
    ) -> Result<Outcome, String> {
        // Every call finds other values in its buffers: they make no difference.
        let start = self.random.below(STARTS);
        let fill = Fill {
            bytes: &self.bytes[start..],
            words: &self.words[self.random.below(4)][start..],
            place_and_count: &self.words[0][start..],
            guard: self.random.pick(&[0, GUARD]),
        };
        let outcome = perform(library, session, request, fill);
        outcome.map_err(|message| format!("{message}\n{request:?}"))
    }

    /// A call of the library under test.
    fn try_library(&mut self, session: &[u8], request: &Request) -> Result<Outcome, String> {
        let outcome = self.call(self.library, session, request)?;
        self.counts.add(request, &outcome);
        Ok(outcome)
    }

    /// Makes a call and compares what it does with what is expected.
    fn expect(
        &mut self,
        session: &[u8],
        request: &Request,
        expected: &Outcome,
    ) -> Result<(), String> {
        let outcome = self.try_library(session, request)?;
        let compared = outcome.compare(expected);
        compared.map_err(|message| format!("{message}\n{request:?}"))
    }

    /// The reference must do the same, with its own look at what must stay.
    fn expect_as_reference(&mut self, session: &[u8], request: &Request) -> Result<(), String> {
        let expected = self.call(&Reference, session, request)?;
        self.expect(session, request, &expected)
    }

    fn accepted(&mut self, bytes: &[u8]) -> Result<(), String> {
        self.expect_as_reference(bytes, &Request::Check)?;
        let session = Session::read(bytes);
        let mut tally = Tally::default();
        note_sizes(&session, &mut tally);
        let left = reference::depth_first(&session, &mut tally);
        let list = timetables::finishing(&mut self.random, &session, &mut tally);
        // Any finishing list leaves what the depth-first run leaves.
        if reference::plain(&session, &mut tally) != left
            || reference::timetabled(&session, &list, &mut tally).as_ref() != Ok(&left)
        {
            return Err("runs of the reference differ".to_string());
        }
        for clearance in session.lattice.levels() {
            let whole = self.runs_agree(bytes, clearance, &list)?;
            let expected = Outcome::finished(left.shown(&session, clearance));
            self.emptied(bytes, clearance, &whole, &expected)
                .map_err(|message| format!("emptied for {clearance}: {message}"))?;
            whole
                .compare(&expected)
                .map_err(|message| format!("clearance {clearance}: {message}"))?;
            self.tuned_agrees(bytes, clearance, &list, &expected)?;
            self.pages(bytes, &session, &left, clearance, &mut tally)?;
            self.note_objects(&session, &left, clearance, &mut tally);
        }
        self.other_timetables(bytes, &session, &list, &mut tally)?;
        self.counts.limits.add(&tally);
        self.other_buffers(bytes, &session, &list)
    }

    /// The plain and the timetabled run show a reader what the depth-first run
    /// shows, which is given.
    fn runs_agree(
        &mut self,
        session: &[u8],
        clearance: usize,
        list: &[u8],
    ) -> Result<Outcome, String> {
        let request = self.finishing(Run::DepthFirst, clearance);
        let depth_first = self.try_library(session, &request)?;
        for run in [Run::Plain, Run::Timetabled(list.to_vec())] {
            let request = self.finishing(run, clearance);
            self.expect(session, &request, &depth_first)
                .map_err(|message| format!("unlike the depth-first run: {message}"))?;
        }
        Ok(depth_first)
    }

    /// A run with enough room, but for place and count.
    fn finishing(&mut self, run: Run, clearance: usize) -> Request {
        let lengths = Lengths {
            place_and_count: self.place_and_count_length(&run),
            ..Lengths::ENOUGH
        };
        Request::Run {
            run,
            clearance,
            lengths,
        }
    }

    fn place_and_count_length(&mut self, run: &Run) -> usize {
        let enough = run.numbers();
        let lengths = [0, 1, enough - 1, enough, enough, enough + 1];
        self.random.pick(&lengths)
    }

    /// The session emptied for a level shows the same to a reader of that level.
    fn emptied(
        &mut self,
        bytes: &[u8],
        clearance: usize,
        whole: &Outcome,
        expected: &Outcome,
    ) -> Result<(), String> {
        let bytes = reference::emptied(bytes, clearance);
        if reference::check(&bytes) != 0 {
            return Err("not accepted".to_string());
        }
        let session = Session::read(&bytes);
        let outcome = reference::depth_first(&session, &mut Tally::idle());
        if outcome.shown(&session, clearance) != expected.written {
            return Err("the reference shows other bytes".to_string());
        }
        let list = timetables::finishing(&mut self.random, &session, &mut Tally::idle());
        self.runs_agree(&bytes, clearance, &list)?.compare(whole)
    }

    /// The tuned variant is not the library under test, but must be right too.
    fn tuned_agrees(
        &mut self,
        session: &[u8],
        clearance: usize,
        list: &[u8],
        expected: &Outcome,
    ) -> Result<(), String> {
        let run = match self.random.below(3) {
            0 => Run::DepthFirst,
            1 => Run::Plain,
            _ => Run::Timetabled(list.to_vec()),
        };
        let request = self.finishing(run, clearance);
        self.expect_of_tuned(session, &request, expected)
    }

    fn expect_of_tuned(
        &mut self,
        session: &[u8],
        request: &Request,
        expected: &Outcome,
    ) -> Result<(), String> {
        let outcome = self.call(&Tuned, session, request)?;
        let compared = outcome.compare(expected);
        compared.map_err(|message| format!("tuned variant: {message}\n{request:?}"))
    }

    /// Lists that are cut, held back and spoiled.
    fn other_timetables(
        &mut self,
        bytes: &[u8],
        session: &Session,
        list: &[u8],
        tally: &mut Tally,
    ) -> Result<(), String> {
        let levels = session.lattice.levels().len();
        let mut timetables = vec![timetables::cut(&mut self.random, list)];
        timetables.extend(timetables::held_back(&mut self.random, session, list));
        for _ in 0..3 {
            timetables.push(timetables::spoiled(&mut self.random, list, levels));
        }
        for timetable in timetables {
            let clearance = self.random.below(levels);
            let expected = match reference::timetabled(session, &timetable, tally) {
                Ok(outcome) => Outcome::finished(outcome.shown(session, clearance)),
                Err(refusal) => Outcome::refused(refusal),
            };
            let run = Run::Timetabled(timetable);
            let lengths = Lengths {
                work: WORK_LENGTH + self.random.below(3),
                result: RESULT_LENGTH + self.random.below(3),
                page: 0,
                place_and_count: self.place_and_count_length(&run),
            };
            let request = Request::Run {
                run,
                clearance,
                lengths,
            };
            self.expect(bytes, &request, &expected)?;
            self.expect_of_tuned(bytes, &request, &expected)?;
        }
        Ok(())
    }

    /// Buffers that may be too short and clearances that may be no levels.
    fn other_buffers(
        &mut self,
        bytes: &[u8],
        session: &Session,
        list: &[u8],
    ) -> Result<(), String> {
        let levels = session.lattice.levels().len();
        let timetabled = Run::Timetabled(list.to_vec());
        for run in [Run::DepthFirst, Run::Page, Run::Plain, timetabled] {
            let mut clearance = self.random.below(levels);
            if self.random.one_in(4) {
                let absent = clearances::absent(levels, clearance);
                let (name, absent) = self.random.pick(&absent);
                self.counts.add_clearance(name);
                clearance = absent;
            }
            let request = self.any_lengths(run, clearance);
            self.expect_as_reference(bytes, &request)?;
        }
        Ok(())
    }

    fn any_lengths(&mut self, run: Run, clearance: usize) -> Request {
        let place_and_count = self.place_and_count_length(&run);
        let random = &mut self.random;
        let work = WORK_LENGTH + 1 - random.below(3);
        let result = RESULT_LENGTH + 1 - random.below(3);
        let page = PAGE_LENGTH + 1 - random.below(3);
        let lengths = Lengths {
            work: random.pick(&[0, 1, work, work, work, 9000]),
            result: random.pick(&[0, 16, result, result, result, 6000]),
            page: random.pick(&[0, 28, page, page, page, 9000]),
            place_and_count,
        };
        Request::Run {
            run,
            clearance,
            lengths,
        }
    }

    /// The check, one of the runs, and the page, of a session that is not accepted.
    fn refused(&mut self, session: &[u8]) -> Result<(), String> {
        self.expect_as_reference(session, &Request::Check)?;
        let number = Tuned.check(session);
        if number != reference::check(session) {
            return Err(format!("tuned variant: check answers {number}"));
        }
        let run = match self.random.below(3) {
            0 => Run::DepthFirst,
            1 => Run::Plain,
            _ => Run::Timetabled((0..6).map(|_| self.random.byte_below(4)).collect()),
        };
        let clearance = self.random.pick(&[0, 1, 255, usize::MAX]);
        let request = self.any_lengths(run, clearance);
        self.expect_as_reference(session, &request)?;
        self.refused_pages(session, clearance)
    }
}

fn note_sizes(session: &Session, tally: &mut Tally) {
    if session.lattice.levels().len() == LEVELS_MAX {
        tally.saw(Event::EightLevels);
    }
    if session.objects.len() == OBJECTS_MAX {
        tally.saw(Event::ThirtyTwoObjects);
    }
    if session.step_records == STEP_RECORDS_MAX {
        tally.saw(Event::AllStepRecords);
    }
}
