//! Measures the library next to the reference and next to the tuned variant, in
//! rounds that alternate between the two: check, plain, timetabled and depth-first
//! run, and page, of session W, of a typical one and of largest ones, the timetabled
//! run also by a list in which upper levels step as early as they may. The page entry
//! is measured next to the library's depth-first run with a page by the tuned variant
//! too. Prints tables.
//! Argument: number of rounds (201).

use lupinpause_tests::ffi::Compiled;
use lupinpause_tests::library::Library;
use lupinpause_tests::measured::{
    Buffers, Case, Entry, CHECK, ENTRIES, PAGE, PAGE_APART, SESSIONS,
};
use lupinpause_tests::reference::{self, Reference, Session};
use lupinpause_tests::request::Outcome;
use lupinpause_tests::tally::Tally;
use lupinpause_tests::tuned::Tuned;
use std::{env, hint::black_box, process::ExitCode, time::Instant};

/// Wanted length of one measurement: short, so that few are disturbed by other
/// work on the machine.
const NANOSECONDS: f64 = 2e5;

fn main() -> ExitCode {
    let rounds = match env::args().nth(1).map_or(Ok(201), |text| text.parse()) {
        Ok(rounds) if rounds > 0 => rounds,
        _ => {
            eprintln!("the argument is the number of rounds, at least 1");
            return ExitCode::FAILURE;
        }
    };
    println!("{rounds} rounds; ratio: the library's time by the other's, median (quartiles)");
    println!();
    for (_, title, session) in SESSIONS {
        if let Err(message) = measure_session(title, session(), rounds) {
            eprintln!("{title}: {message}");
            return ExitCode::FAILURE;
        }
    }
    ExitCode::SUCCESS
}

fn measure_session(title: &str, bytes: Vec<u8>, rounds: usize) -> Result<(), String> {
    if reference::check(&bytes) != 0 {
        return Err("not accepted".to_string());
    }
    let session = Session::read(&bytes);
    let outcome = reference::plain(&session, &mut Tally::idle());
    let case = Case::new(bytes);
    let shown = outcome.shown(&session, case.clearance);
    let page = reference::page(&outcome, &session, case.clearance);
    println!(
        "{title}: {} records, {} managers, {} script steps, {} scheduler steps",
        case.session.len() / 16,
        outcome.managers(),
        outcome.script_steps(),
        case.timetable.len(),
    );
    println!();
    println!("| entry | library, ns | reference, ns | ratio | tuned variant, ns | ratio |");
    println!("|---|---|---|---|---|---|");
    for (name, entry) in ENTRIES {
        let expected = match name {
            CHECK => Outcome::finished(Vec::new()),
            PAGE | PAGE_APART => Outcome::paged(shown.clone(), page.clone().into_bytes()),
            _ => Outcome::finished(shown.clone()),
        };
        all_agree(entry, &case, &expected).map_err(|message| format!("{name}: {message}"))?;
        let ours = |calls| time(entry, &Compiled, &case, calls);
        let reference = measure(ours, |calls| time(entry, &Reference, &case, calls), rounds);
        let tuned = measure(ours, |calls| time(entry, &Tuned, &case, calls), rounds);
        println!(
            "| {name} | {:.0} | {:.0} | {} | {:.0} | {} |",
            tuned.library, reference.other, reference.ratio, tuned.other, tuned.ratio,
        );
    }
    println!();
    measure_page(&case, rounds);
    Ok(())
}

/// What is measured does what it should.
fn all_agree(entry: Entry, case: &Case, expected: &Outcome) -> Result<(), String> {
    for library in [&Compiled as &dyn Library, &Reference, &Tuned] {
        let mut lent = Buffers::cleared();
        let number = entry(library, case, &mut lent);
        lent.outcome(number).compare(expected)?;
    }
    Ok(())
}

/// The page entry next to the library's depth-first run with a page by the tuned
/// variant.
fn measure_page(case: &Case, rounds: usize) {
    let [page, apart] = [PAGE, PAGE_APART].map(|wanted| {
        let found = ENTRIES.iter().find(|(name, _)| *name == wanted);
        found.expect("both are entries").1
    });
    let measured = measure(
        |calls| time(page, &Compiled, case, calls),
        |calls| time(apart, &Compiled, case, calls),
        rounds,
    );
    println!(
        "{PAGE}: {:.0} ns, {PAGE_APART}: {:.0} ns, both by the library: {}",
        measured.library, measured.other, measured.ratio,
    );
    println!();
}

/// Median nanoseconds of a call, the library's and the other's, and their ratio.
struct Measured {
    library: f64,
    other: f64,
    ratio: String,
}

fn measure(library: impl Fn(u32) -> f64, compared: impl Fn(u32) -> f64, rounds: usize) -> Measured {
    // Also warms up.
    let slower = library(3).max(compared(3));
    let calls = (NANOSECONDS / slower).ceil() as u32;

    let mut ours = Vec::new();
    let mut theirs = Vec::new();
    for round in 0..rounds {
        // Neither is always the first.
        if round % 2 == 0 {
            ours.push(library(calls));
            theirs.push(compared(calls));
        } else {
            theirs.push(compared(calls));
            ours.push(library(calls));
        }
    }
    let mut ratios: Vec<f64> = ours.iter().zip(&theirs).map(|(x, y)| x / y).collect();
    for values in [&mut ours, &mut theirs, &mut ratios] {
        values.sort_by(f64::total_cmp);
    }
    Measured {
        library: quantile(&ours, 0.5),
        other: quantile(&theirs, 0.5),
        ratio: format!(
            "{:.2} ({:.2} to {:.2})",
            quantile(&ratios, 0.5),
            quantile(&ratios, 0.25),
            quantile(&ratios, 0.75),
        ),
    }
}

/// Mean nanoseconds of one call, with buffers cleared before the first.
fn time(entry: Entry, library: &dyn Library, case: &Case, calls: u32) -> f64 {
    // Opaque, so that neither library is inlined into the loop.
    let (entry, library) = (black_box(entry), black_box(library));
    let mut lent = Buffers::cleared();
    let start = Instant::now();
    for _ in 0..calls {
        black_box(entry(library, black_box(case), &mut lent));
    }
    start.elapsed().as_nanos() as f64 / f64::from(calls)
}

fn quantile(sorted: &[f64], part: f64) -> f64 {
    sorted[((sorted.len() - 1) as f64 * part).round() as usize]
}
