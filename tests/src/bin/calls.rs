//! Makes calls of one entry, and nothing else: for counting instructions.
//! Arguments: library, reference or tuned; check, plain, timetabled,
//! timetabled-early, depth-first, page or page-apart; w, typical, forks or steps;
//! number of calls.

use lupinpause_tests::ffi::Compiled;
use lupinpause_tests::library::Library;
use lupinpause_tests::measured::{Buffers, Case, ENTRIES, SESSIONS};
use lupinpause_tests::reference::Reference;
use lupinpause_tests::tuned::Tuned;
use std::{env, hint::black_box, process::ExitCode};

fn main() -> ExitCode {
    let arguments: Vec<String> = env::args().skip(1).collect();
    match run(&arguments) {
        Some(()) => ExitCode::SUCCESS,
        None => {
            eprintln!(
                "library|reference|tuned \
                 check|plain|timetabled|timetabled-early|depth-first|page|page-apart \
                 w|typical|forks|steps CALLS"
            );
            ExitCode::FAILURE
        }
    }
}

/// Nothing is done, and none given, if the arguments are no such call.
fn run(arguments: &[String]) -> Option<()> {
    let [library, entry, session, calls] = arguments else {
        return None;
    };
    let library: &dyn Library = match library.as_str() {
        "library" => &Compiled,
        "reference" => &Reference,
        "tuned" => &Tuned,
        _ => return None,
    };
    let (_, entry) = ENTRIES.iter().find(|(name, _)| name == entry)?;
    let (.., session) = SESSIONS.iter().find(|(name, ..)| name == session)?;
    let calls: u32 = calls.parse().ok()?;
    let case = Case::new(session());
    let mut lent = Buffers::cleared();
    for _ in 0..calls {
        black_box(entry(library, &case, &mut lent));
    }
    Some(())
}
