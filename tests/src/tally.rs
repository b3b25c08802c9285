//! Counts how often each limit and each special case of documents 01 and 02 occurs,
//! and each case that the library treats apart, so that a test that reaches one too
//! rarely is noticed.

macro_rules! events {
    ($($name:ident $text:literal,)*) => {
        /// A limit or special case, seen by the reference.
        #[derive(Clone, Copy, Debug, PartialEq, Eq)]
        pub enum Event { $($name,)* }

        const NAMES: &[&str] = &[$($text,)*];
    };
}

events! {
    EightLevels "8 levels in a session",
    ThirtyTwoObjects "32 objects in a session",
    AllStepRecords "256 step records in a session",
    EighthFrame "8 frames",
    NinthFrame "9th frame, not made",
    NinthFrameUpward "9th frame by a send upward, not made",
    LastStepEmpties "256th step empties the stack",
    LastStepLeaves "256th step leaves frames",
    SixteenWrites "16 writes and no 17th",
    SeventeenthWrite "17th write, not made",
    SeventeenthAtLastStep "17th write as 256th step",
    SeventeenthAtEnd "17th write at the end of the only frame's script",
    FifteenthFork "15th fork of a manager",
    SixteenthFork "16th fork of a manager, not made",
    ThirtyTwoForks "32 forks at one level and no 33rd",
    ThirtyThirdFork "33rd fork at one level",
    ArrivingDropped "fork dropped on arrival",
    WaitingDropped "waiting fork dropped for a smaller stamp",
    SevenDeep "manager 7 forks deep",
    NestedToTop "manager at the top level by two forks or more",
    JoinAboveBoth "fork at a join above both levels",
    UpwardInside "upward send inside a manager",
    ReplyThrownAway "number replied to an upward send inside a manager",
    IncomparableSend "incomparable send",
    DownwardSend "downward send",
    EmptyFrame "frame of an empty method",
    EmptyManager "manager of an empty method",
    TwoPops "2 pops in one step",
    ManyPops "3 pops or more in one step",
    PopAfterQuit "sender popped in the step of a QUIT above it",
    JumpToEnd "jump to the script's end",
    WriteBelow "write below the manager's level",
    WriteNil "write of NIL",
    WriteReplaced "write that replaces one of the same stamp",
    NextManager "manager that starts above an end stamp",
    OlderAtAncestor "older version read at an ancestor's level",
    OlderElsewhere "older version read at another level",
    InitialElsewhere "version 0 read at another level with later ones",
    NumberReadAgain "number at another level read again by the same manager",
    NilReadAgain "NIL at another level read again by the same manager",
    ReadByTheNext "field at another level found changed by a later manager of a level",
    ReplyLost "root ended with frames",
    Choice "scheduler step with several levels allowed",
    EarlyStep "step of a timetable that the conservative rule refuses",
    EarlyFinished "timetable that finishes, with a step that the conservative rule refuses",
    BeforeAncestor "step before an ancestor of its manager has ended",
    BeforeLater "step before one of larger fork stamp, at a level below, has ended",
    BeforeAside "step before one of smaller fork stamp, at a level not below, has ended",
    AboveDropped "step above a level that dropped a fork of smaller stamp",
    HeldBack "timetable that question 14 refuses",
    HeldBackByWaiting "timetable that question 14 refuses for waiting managers alone",
    PageOfNone "page without a history",
    PageOfMost "page of as many histories as a session can have",
    PageLetters "page with a letter in a stamp",
    PageWrites "page with writes of two digits",
    PageFirst "page with a first stamp of three digits",
    PageLast "page with a last stamp of three digits",
    PageSteps "page with steps of three digits",
    PageTotal "page with a total of five digits",
    PageHidden "page whose total leaves out steps not shown",
    PageQuotient "page with a quotient of three digits",
    PageExact "page with a level of several managers whose mean has no remainder",
    PageLargestRemainder "page with the remainder 31, of 32 managers",
    PageIdleLevel "page with a level shown that had no managers, between two that had",
    PageHiddenLevel "page without the line of a level that had managers and is not shown",
    PageAllLevels "page with a line for each of 8 levels",
    NilOfFork "NIL seen in place of a number sent to a fork",
    NilOfSixteenth "NIL seen in place of a number sent to a 16th fork",
    NilOfInside "NIL seen in place of a number sent upward inside a manager",
    NilOfNinthUpward "NIL seen in place of a number sent upward to a 9th frame",
    NilOfNinth "NIL seen in place of a number sent to a 9th frame",
    NilOfIncomparable "NIL seen in place of a number sent to an incomparable level",
    Made "object made",
    MadeByMade "object made by a made one",
    MadeIntoField "object made, its number into a register that is one of its fields",
    MadeAfterWithdrawn "object made where an earlier one of its level is withdrawn",
    MadeAfterRefused "object made at a level where a CREATE passed 16 writes before",
    CreateAtTwelve "object made at 12 writes",
    CreateAtThirteen "CREATE at 13 writes, not made",
    CreateAtFourteen "CREATE at 14 writes, not made",
    CreateAtFifteen "CREATE at 15 writes, not made",
    CreateAtSixteen "CREATE at 16 writes, not made",
    FewerWrites "ending 2 with fewer than 16 writes",
    FifthCreate "CREATE with all numbers of its level used",
    FifthCreateAtLimit "CREATE with all numbers of its level used, at 13 writes or more",
    FifthCreateAfterWithdrawn "CREATE with all numbers of its level used, one of them withdrawn",
    CreateBelow "CREATE below the manager's level",
    WithdrawBelow "WITHDRAW below the manager's level",
    WithdrawnGiven "object of the session withdrawn",
    WithdrawnMade "made object withdrawn",
    WithdrawnWaiting "object withdrawn while other frames of it wait",
    ExistenceReplaced "object made and withdrawn under one write stamp",
    WithdrawAtFifteen "WITHDRAW as 16th write",
    WithdrawAtSixteen "WITHDRAW at 16 writes, not made",
    WithdrawnRead "READ of a withdrawn object",
    WithdrawnWrite "WRITE of a withdrawn object",
    WithdrawnSend "SEND of a withdrawn object",
    WithdrawnQuit "QUIT of a withdrawn object",
    WithdrawnCreate "CREATE of a withdrawn object",
    WithdrawnAgain "second WITHDRAW of an object",
    WithdrawnAtLimit "WRITE, CREATE or WITHDRAW of a withdrawn object at 16 writes",
    SentToMade "message inside a manager to a made object",
    SentToNeverMade "message inside a manager to a number never made",
    SentToWithdrawn "message inside a manager to a withdrawn object",
    UpwardToMade "upward send inside a manager to a number that a level owns",
    IncomparableToMade "send to a number of an incomparable level",
    ForkToMade "manager of a made object",
    ForkToNeverMade "manager of a number never made",
    ForkToWithdrawn "manager of a withdrawn object",
    MadeBeforeStart "manager of an object made after the fork",
    WithdrawnBeforeStart "manager of an object withdrawn after the fork",
    MadeReadAbove "field of a made object read at a level above",
    WithdrawnReadAbove "field read at a level above, of an object withdrawn later",
    NotYetMade "message to an object made later than is seen",
    StillThere "message to an object withdrawn later than is seen",
    MakerWithdrawn "message to an object whose maker's methods it has, the maker being withdrawn",
    NilOfCreate "NIL seen in place of a number after a CREATE without effect",
    NilOfFifthCreate "NIL seen in place of a number after a CREATE with all numbers used",
    NilOfWithdrawnRead "NIL seen in place of a number after a READ of a withdrawn object",
    MadeShown "made object shown",
    MadeHidden "made object not shown, of a level above or aside",
    WithdrawnAmong "object of the session withdrawn, among shown ones of lower and higher number",
    WithdrawnAbove "object of the session withdrawn at a level not shown",
    FourShown "four made objects of one level shown",
    LevelsShown "made objects of two levels shown or more",
    SumLargest "sum that is 4,294,967,295",
    SumPasses "sum that passes 4,294,967,295",
    SumOneMore "sum that passes 4,294,967,295 by 1",
    DoubleLargest "register added to itself, 2,147,483,647",
    DoublePasses "register added to itself, past 4,294,967,295",
    LoopEndedBySum "loop that ends by a JUMP on a register that a sum made NIL",
    NilOfSum "NIL written in place of a sum that passes 4,294,967,295",
    SumNilSent "NIL sent in place of a sum that passes 4,294,967,295",
    SumNilReplied "NIL replied by the root in place of a sum that passes 4,294,967,295",
}

/// What document 02 changes must occur in many sessions, all else in one. Besides
/// these, whatever concerns objects made and withdrawn, and sums.
const FREQUENT: [(Event, u64); 17] = [
    (Event::EarlyFinished, 1_000),
    (Event::HeldBack, 1_000),
    (Event::PageOfNone, PAGES),
    (Event::PageOfMost, PAGES),
    (Event::PageLetters, PAGES),
    (Event::PageWrites, PAGES),
    (Event::PageFirst, PAGES),
    (Event::PageLast, PAGES),
    (Event::PageSteps, PAGES),
    (Event::PageTotal, PAGES),
    (Event::PageHidden, PAGES),
    (Event::PageQuotient, PAGES),
    (Event::PageExact, PAGES),
    (Event::PageLargestRemainder, PAGES),
    (Event::PageIdleLevel, PAGES),
    (Event::PageHiddenLevel, PAGES),
    (Event::PageAllLevels, PAGES),
];

/// How often whatever concerns the page must occur.
pub const PAGES: u64 = 200;

/// How often whatever concerns objects made and withdrawn must occur. All of it stands
/// after the other events, before those of sums.
pub const OBJECTS: u64 = 200;

/// How often whatever concerns sums must occur. All of it stands at the end.
const SUMS: u64 = 200;

/// How often each event occurred.
#[derive(Clone)]
pub struct Tally {
    counts: Vec<u64>,
}

impl Default for Tally {
    fn default() -> Self {
        Tally {
            counts: vec![0; NAMES.len()],
        }
    }
}

impl Tally {
    /// One that counts nothing.
    pub fn idle() -> Self {
        Tally { counts: Vec::new() }
    }

    /// Whether it counts nothing.
    pub fn is_idle(&self) -> bool {
        self.counts.is_empty()
    }

    pub fn saw(&mut self, event: Event) {
        if let Some(count) = self.counts.get_mut(event as usize) {
            *count += 1;
        }
    }
}

/// Occurrences of events, and of sessions with them.
#[derive(Default)]
pub struct Totals {
    occurrences: Tally,
    sessions: Tally,
}

impl Totals {
    /// Adds what was seen with one session.
    pub fn add(&mut self, seen: &Tally) {
        for (i, &count) in seen.counts.iter().enumerate() {
            self.occurrences.counts[i] += count;
            self.sessions.counts[i] += u64::from(count > 0);
        }
    }

    pub fn merge(&mut self, other: &Totals) {
        for (tally, more) in [
            (&mut self.occurrences, &other.occurrences),
            (&mut self.sessions, &other.sessions),
        ] {
            for (count, extra) in tally.counts.iter_mut().zip(&more.counts) {
                *count += extra;
            }
        }
    }

    /// One line for each event: sessions with it, occurrences, name.
    pub fn report(&self) -> String {
        let rows = self.sessions.counts.iter().zip(&self.occurrences.counts);
        rows.zip(NAMES)
            .map(|((sessions, times), name)| format!("{sessions:>8} {times:>10}  {name}\n"))
            .collect()
    }

    /// The names of the events that occurred in too few sessions.
    pub fn missing(&self) -> Vec<&'static str> {
        let mut least = vec![1; NAMES.len()];
        for (event, times) in FREQUENT {
            least[event as usize] = times;
        }
        least[Event::Made as usize..].fill(OBJECTS);
        least[Event::SumLargest as usize..].fill(SUMS);
        let counts = self.sessions.counts.iter().zip(least).zip(NAMES);
        counts
            .filter(|((&count, least), _)| count < *least)
            .map(|(_, &name)| name)
            .collect()
    }
}
