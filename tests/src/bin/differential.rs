//! Compares the library with the reference: on the recorded vectors, on the stated
//! cases, on all small tables of levels, on fixed sessions, on small ones with one byte
//! or two changed, and on generated ones, valid and damaged, with all runs. Ends with a report of how often
//! each answer, each length, each clearance, each broken rule and each limit
//! occurred; if one occurred too rarely, that is a failure, unless fewer sessions
//! were asked for than by default.
//! Arguments: number of sessions of each sort (20000), seed (1), first case (0).

use lupinpause_tests::counts::Counts;
use lupinpause_tests::ffi::Compiled;
use lupinpause_tests::guarded::GUARD;
use lupinpause_tests::library::Library;
use lupinpause_tests::reference::Reference;
use lupinpause_tests::request::{perform, Fill};
use lupinpause_tests::trial::Trial;
use lupinpause_tests::tuned::Tuned;
use lupinpause_tests::vectors::Vector;
use lupinpause_tests::{padding, sessions, stated, tables, vectors};
use std::fmt::Display;
use std::panic::{catch_unwind, AssertUnwindSafe};
use std::process::ExitCode;
use std::sync::atomic::{AtomicU64, Ordering};
use std::{env, fs, thread, time::Instant};

/// So many sessions meet every limit.
const ENOUGH: u64 = 20_000;

/// So many vectors are recorded.
const VECTORS: usize = 11_251;

fn main() -> ExitCode {
    match run() {
        Ok(()) => ExitCode::SUCCESS,
        Err(message) => {
            eprintln!("{message}");
            ExitCode::FAILURE
        }
    }
}

fn run() -> Result<(), String> {
    let count = argument(1, ENOUGH)?;
    let seed = argument(2, 1)?;
    let first = argument(3, 0)?;
    if count == 0 {
        return Err("no sessions asked for".to_string());
    }
    let recorded = vectors::read()?;
    if recorded.len() != VECTORS {
        return Err(format!("{} vectors, not {VECTORS}", recorded.len()));
    }
    known("vector", &numbered(recorded))?;
    known("stated case", &stated::cases())?;
    println!(
        "tables: all {} of up to 4 levels agree",
        tables::all(&Compiled)?
    );
    fixed(seed)?;
    padded()?;
    let start = Instant::now();
    let counts = generated(first, count, seed)?;
    print!("{}", counts.report());
    println!(
        "sessions: {count} valid and {count} damaged of seed {seed} agree, in {:.0} s",
        start.elapsed().as_secs_f64()
    );
    let missing = counts.missing();
    if missing.is_empty() || count < ENOUGH {
        Ok(())
    } else {
        Err(format!("occurred too rarely: {}", missing.join("; ")))
    }
}

fn argument(position: usize, default: u64) -> Result<u64, String> {
    env::args().nth(position).map_or(Ok(default), |text| {
        text.parse()
            .map_err(|_| format!("argument {position} is no number: {text}"))
    })
}

fn numbered(vectors: Vec<Vector>) -> Vec<(String, Vector)> {
    let names = (0..vectors.len()).map(|i| i.to_string());
    names.zip(vectors).collect()
}

/// Cases with known answers, put to everyone.
fn known(sort: &str, cases: &[(impl Display, Vector)]) -> Result<(), String> {
    let libraries: [(&str, &dyn Library); 3] = [
        ("reference", &Reference),
        ("tuned variant", &Tuned),
        ("library", &Compiled),
    ];
    for (name, library) in libraries {
        for (i, (case, vector)) in cases.iter().enumerate() {
            let fill = Fill {
                bytes: &[0xa5; 70_000],
                words: &[0xdead_beef; 20_000],
                place_and_count: &[0xdead_beef; 100],
                guard: [0, GUARD][i % 2],
            };
            perform(library, &vector.session, &vector.request, fill)
                .and_then(|outcome| outcome.compare(&vector.expected))
                .map_err(|message| format!("{sort} {case}, {name}: {message}"))?;
        }
    }
    println!(
        "{sort}: {} cases agree with reference, tuned variant and library",
        cases.len()
    );
    Ok(())
}

/// Sessions that are not generated, and the examples, with all runs and all
/// clearances.
fn fixed(seed: u64) -> Result<(), String> {
    let mut trial = Trial::new(&Compiled, seed);
    for (name, session) in sessions::FIXED {
        trial.session(name, &session(), Some(0))?;
    }
    let examples = examples()?;
    for (name, session) in &examples {
        trial.session(name, session, None)?;
    }
    println!(
        "fixed sessions: {} agree, and {} examples",
        sessions::FIXED.len(),
        examples.len()
    );
    Ok(())
}

/// Small sessions in which one byte or two changed, padding and others.
fn padded() -> Result<(), String> {
    let tried = padding::all(&Compiled)?;
    println!(
        "padding: {} checks agree with reference, tuned variant and library, {} of them as stated",
        tried.checks, tried.stated
    );
    Ok(())
}

/// The sessions in examples/ by their files' names.
fn examples() -> Result<Vec<(String, Vec<u8>)>, String> {
    let folder = concat!(env!("CARGO_MANIFEST_DIR"), "/../examples");
    let failed = |error| format!("{folder}: {error}");
    let mut examples = Vec::new();
    for entry in fs::read_dir(folder).map_err(failed)? {
        let path = entry.map_err(failed)?.path();
        if path.extension().is_some_and(|end| end == "session") {
            let session = fs::read(&path).map_err(failed)?;
            examples.push((path.display().to_string(), session));
        }
    }
    match examples.is_empty() {
        true => Err(format!("{folder}: no session")),
        false => Ok(examples),
    }
}

/// `count` cases, shared between as many threads as the machine runs.
fn generated(first: u64, count: u64, seed: u64) -> Result<Counts, String> {
    let threads = thread::available_parallelism().map_or(1, usize::from);
    let next = AtomicU64::new(first);
    let end = first + count;
    let work = || -> Result<Counts, (u64, String)> {
        let mut trial = Trial::new(&Compiled, seed);
        loop {
            let case = next.fetch_add(1, Ordering::Relaxed);
            if case >= end {
                return Ok(trial.counts);
            }
            // A panic too tells the case; it is the worker's last.
            let tried = catch_unwind(AssertUnwindSafe(|| trial.case(case)));
            let tried = tried.unwrap_or_else(|_| Err("panicked".to_string()));
            if let Err(message) = tried {
                // The other threads stop too.
                next.store(end, Ordering::Relaxed);
                return Err((case, message));
            }
        }
    };
    let results: Vec<_> = thread::scope(|scope| {
        let workers: Vec<_> = (0..threads).map(|_| scope.spawn(work)).collect();
        workers.into_iter().map(|worker| worker.join()).collect()
    });
    let mut counts = Trial::new(&Compiled, seed).counts;
    for result in results {
        match result {
            Ok(Ok(more)) => counts.merge(&more),
            Ok(Err((case, message))) => {
                return Err(format!("case {case} of seed {seed}: {message}"));
            }
            Err(_) => return Err(format!("a thread panicked; seed {seed}")),
        }
    }
    Ok(counts)
}
