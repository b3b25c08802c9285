//! Generated sessions with each JUMP made a SET: every script runs straight to
//! its end or its QUIT.
//! Arguments: number of sessions (100), seed (1).

use lupinpause_tests::ffi::Compiled;
use lupinpause_tests::random::Random;
use lupinpause_tests::record::{JUMP, SET, STEP};
use lupinpause_tests::sessions;
use lupinpause_tests::trial::Trial;
use std::{env, process::ExitCode};

fn main() -> ExitCode {
    let argument = |position, default: u64| {
        env::args()
            .nth(position)
            .map_or(Some(default), |text| text.parse().ok())
    };
    let (Some(count), Some(seed)) = (argument(1, 100), argument(2, 1)) else {
        eprintln!("NUMBER SEED");
        return ExitCode::FAILURE;
    };
    let mut trial = Trial::new(&Compiled, seed);
    for case in 0..count {
        let session = without_jumps(sessions::valid(&mut Random::of_case(seed, case)));
        if let Err(message) = trial.session("without JUMPs", &session, Some(0)) {
            eprintln!("case {case} of seed {seed}: {message}");
            return ExitCode::FAILURE;
        }
    }
    println!("sessions: {count} without JUMPs of seed {seed} agree");
    ExitCode::SUCCESS
}

/// A JUMP on a register becomes a SET of it to 0.
fn without_jumps(mut session: Vec<u8>) -> Vec<u8> {
    for record in session.chunks_exact_mut(16) {
        if record[0] == STEP && record[3] == JUMP {
            record[3] = SET;
            record[5] = 0;
        }
    }
    session
}
