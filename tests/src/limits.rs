//! The limits that documents 01 and 02 set.

pub const LEVELS_MAX: usize = 8;
pub const OBJECTS_MAX: usize = 32;
pub const STEP_RECORDS_MAX: usize = 256;
pub const RECORDS_MAX: usize = LEVELS_MAX + OBJECTS_MAX + STEP_RECORDS_MAX + 1;
pub const METHOD_STEPS_MAX: usize = 16;

pub const REGISTERS: usize = 4;
pub const FIELDS: usize = 3;
pub const NAMES: usize = 16;

/// Frames of a message manager's stack.
pub const FRAMES_MAX: usize = 8;
/// Script steps of a manager.
pub const STEPS_MAX: u32 = 256;
/// Writes of a manager that take effect.
pub const WRITES_MAX: u32 = 16;
/// Forks that a manager makes.
pub const FORKS_MAX: u32 = 15;
/// Forks that a level keeps.
pub const KEPT_MAX: usize = 32;

/// Objects that a level can make: it owns so many numbers, those after the
/// session's objects in the order of the levels.
pub const MADE_MAX: usize = 4;
/// Numbers of objects, of the session or made.
pub const NUMBERS: usize = OBJECTS_MAX + LEVELS_MAX * MADE_MAX;
/// As so many writes counts a CREATE that works: three fields and existence.
pub const CREATE_WRITES: u32 = 4;

/// Numbers of the work slice that a scheduled run asks for and clears.
pub const WORK_LENGTH: usize = 8192;
/// Bytes of the result buffer that a run asks for.
pub const RESULT_LENGTH: usize = 5136;
/// Bytes of a page's line: 27 columns and a line feed.
pub const PAGE_LINE: usize = 28;
/// Bytes of the page buffer that a run with a page asks for.
pub const PAGE_LENGTH: usize = 7420;
/// The most managers of a session: the root, its 15 forks at the one level next
/// above it, and 32 at each of six further levels.
pub const MANAGERS_MAX: usize = 1 + FORKS_MAX as usize + 6 * KEPT_MAX;
/// Numbers of `place_and_count` that a run asks for: place and count.
pub const PLACE_AND_COUNT_LENGTH: usize = 2;
/// Numbers of `place_and_counts` that a run with a page asks for: place, count and
/// count of page bytes.
pub const PLACE_AND_COUNTS_LENGTH: usize = 3;
