//! The library under test, linked as the static library libexports.a.

use crate::library::Library;

extern "C" {
    fn lupinpause_check(session: *const u8, length: usize) -> u32;
    fn lupinpause_run_timetable(
        session: *const u8,
        length: usize,
        timetable: *const u8,
        timetable_length: usize,
        clearance: usize,
        work: *mut u32,
        work_length: usize,
        result: *mut u8,
        result_length: usize,
        place_and_count: *mut u32,
        place_and_count_length: usize,
    ) -> u32;
    fn lupinpause_run_plain(
        session: *const u8,
        length: usize,
        clearance: usize,
        work: *mut u32,
        work_length: usize,
        result: *mut u8,
        result_length: usize,
        place_and_count: *mut u32,
        place_and_count_length: usize,
    ) -> u32;
    fn lupinpause_run_depth_first(
        session: *const u8,
        length: usize,
        clearance: usize,
        result: *mut u8,
        result_length: usize,
        place_and_count: *mut u32,
        place_and_count_length: usize,
    ) -> u32;
    fn lupinpause_run_page(
        session: *const u8,
        length: usize,
        clearance: usize,
        result: *mut u8,
        result_length: usize,
        page: *mut u8,
        page_length: usize,
        place_and_counts: *mut u32,
        place_and_counts_length: usize,
    ) -> u32;
}

pub struct Compiled;

// An empty slice has a pointer that is not null, though the header allows it:
// it may be to no memory, so any use of it is a fault.
impl Library for Compiled {
    fn check(&self, session: &[u8]) -> u32 {
        // SAFETY: the pointer is to `session.len()` readable bytes, which stay
        // borrowed, and so unchanged, during the call; the library only reads
        // them.
        unsafe { lupinpause_check(session.as_ptr(), session.len()) }
    }

    fn run_timetable(
        &self,
        session: &[u8],
        timetable: &[u8],
        clearance: usize,
        work: &mut [u32],
        result: &mut [u8],
        place_and_count: &mut [u32],
    ) -> u32 {
        // SAFETY: each pointer is to as many values as the length beside it
        // says; they stay borrowed during the call, the session and the
        // timetable unchanged and the others for this call alone.
        unsafe {
            lupinpause_run_timetable(
                session.as_ptr(),
                session.len(),
                timetable.as_ptr(),
                timetable.len(),
                clearance,
                work.as_mut_ptr(),
                work.len(),
                result.as_mut_ptr(),
                result.len(),
                place_and_count.as_mut_ptr(),
                place_and_count.len(),
            )
        }
    }

    fn run_plain(
        &self,
        session: &[u8],
        clearance: usize,
        work: &mut [u32],
        result: &mut [u8],
        place_and_count: &mut [u32],
    ) -> u32 {
        // SAFETY: as for the timetabled run.
        unsafe {
            lupinpause_run_plain(
                session.as_ptr(),
                session.len(),
                clearance,
                work.as_mut_ptr(),
                work.len(),
                result.as_mut_ptr(),
                result.len(),
                place_and_count.as_mut_ptr(),
                place_and_count.len(),
            )
        }
    }

    fn run_depth_first(
        &self,
        session: &[u8],
        clearance: usize,
        result: &mut [u8],
        place_and_count: &mut [u32],
    ) -> u32 {
        // SAFETY: as for the timetabled run.
        unsafe {
            lupinpause_run_depth_first(
                session.as_ptr(),
                session.len(),
                clearance,
                result.as_mut_ptr(),
                result.len(),
                place_and_count.as_mut_ptr(),
                place_and_count.len(),
            )
        }
    }

    fn run_page(
        &self,
        session: &[u8],
        clearance: usize,
        result: &mut [u8],
        page: &mut [u8],
        place_and_counts: &mut [u32],
    ) -> u32 {
        // SAFETY: as for the timetabled run.
        unsafe {
            lupinpause_run_page(
                session.as_ptr(),
                session.len(),
                clearance,
                result.as_mut_ptr(),
                result.len(),
                page.as_mut_ptr(),
                page.len(),
                place_and_counts.as_mut_ptr(),
                place_and_counts.len(),
            )
        }
    }
}
