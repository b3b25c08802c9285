//! The entries that include/lupinpause.h declares, whoever provides them.

/// The answer of a run. For the check only the number can differ from 0.
#[derive(Clone, Copy, Debug, Default, PartialEq, Eq)]
pub struct Answer {
    /// The question answered no, or 0.
    pub number: u32,
    /// For questions 12 to 14 the timetable position, otherwise 0.
    pub place: usize,
    /// Result bytes written.
    pub count: usize,
    /// Page bytes written; 0 where the entry has no page.
    pub page_count: usize,
}

impl Answer {
    pub fn refused(number: u32, place: usize) -> Self {
        Answer {
            number,
            place,
            ..Answer::default()
        }
    }

    pub fn finished(count: usize) -> Self {
        Answer {
            count,
            ..Answer::default()
        }
    }

    /// Of a run with a page.
    pub fn paged(count: usize, page_count: usize) -> Self {
        Answer {
            page_count,
            ..Answer::finished(count)
        }
    }

    /// Answers as an entry does: place and count go to `place_and_count` if it has room
    /// for both.
    pub fn give(self, place_and_count: &mut [u32]) -> u32 {
        if let [place, count, ..] = place_and_count {
            *place = self.place as u32;
            *count = self.count as u32;
        }
        self.number
    }

    /// Answers as the entry with a page does: the page's count goes there too, if there
    /// is room for all three.
    pub fn give_with_page(self, place_and_counts: &mut [u32]) -> u32 {
        if let [place, count, page_count, ..] = place_and_counts {
            *place = self.place as u32;
            *count = self.count as u32;
            *page_count = self.page_count as u32;
        }
        self.number
    }
}

/// The five entries.
pub trait Library {
    fn check(&self, session: &[u8]) -> u32;

    fn run_timetable(
        &self,
        session: &[u8],
        timetable: &[u8],
        clearance: usize,
        work: &mut [u32],
        result: &mut [u8],
        place_and_count: &mut [u32],
    ) -> u32;

    fn run_plain(
        &self,
        session: &[u8],
        clearance: usize,
        work: &mut [u32],
        result: &mut [u8],
        place_and_count: &mut [u32],
    ) -> u32;

    fn run_depth_first(
        &self,
        session: &[u8],
        clearance: usize,
        result: &mut [u8],
        place_and_count: &mut [u32],
    ) -> u32;

    fn run_page(
        &self,
        session: &[u8],
        clearance: usize,
        result: &mut [u8],
        page: &mut [u8],
        place_and_counts: &mut [u32],
    ) -> u32;
}
