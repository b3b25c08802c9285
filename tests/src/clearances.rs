//! Clearances that are no present level.

/// Each with what it is. Cut to fewer bits, some of them are the present level.
pub fn absent(levels: usize, present: usize) -> [(&'static str, usize); 6] {
    [
        ("the number of levels", levels),
        ("255", 255),
        ("256 and a level", 256 + present),
        ("65,536 and a level", 65_536 + present),
        ("2^32 and a level", (1 << 32) + present),
        ("the largest number", usize::MAX),
    ]
}
