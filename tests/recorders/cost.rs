//! What recording costs: cost [THREADS] [ROWS]. Each thread spawns, starts and ends this many behaviours over two cowns of its own; a line has the least
//! nanoseconds for one of them, of several tries.

#[path = "../../recorders/boc_record.rs"]
mod boc_record;

use boc_record::{Clock, Cown, Def, Mode, Options, Recorder, Row};
use std::sync::Barrier;
use std::time::Instant;

const TRIES: usize = 15;

/// A cheap clock: one that the processor counts, if there is such.
#[cfg(target_arch = "x86_64")]
fn cycles() -> u64 {
    // SAFETY: the instruction only reads a counter, which every processor of this kind has.
    unsafe { std::arch::x86_64::_rdtsc() }
}

#[cfg(not(target_arch = "x86_64"))]
fn cycles() -> u64 {
    boc_record::wall_ns()
}

fn record_rows(recorder: &Recorder, barrier: &Barrier, rows: u32) -> u128 {
    let mut thread = recorder.thread();
    let main = thread.spawn(Row::NONE, Def::default(), 0, &[]);
    let mut cowns = [Cown::new(0), Cown::new(1)];
    thread.start(main);
    barrier.wait();
    let began = Instant::now();
    for _ in 0..rows {
        let row = thread.spawn(main, Def::default(), 2, &[]);
        thread.ask(row, 0, &mut cowns[0]);
        thread.ask(row, 1, &mut cowns[1]);
        thread.start(row);
        thread.wrote(row, 1);
        thread.end(row, 0);
    }
    began.elapsed().as_nanos()
}

/// The nanoseconds of one behaviour in the slowest thread.
fn once(mode: Mode, clock: Clock, threads: usize, rows: u32) -> u128 {
    let recorder = Recorder::new(Options {
        mode,
        clock,
        memory: 1 << 30,
        ..Options::default()
    });
    let barrier = Barrier::new(threads);
    let most = std::thread::scope(|scope| {
        let spawn = |_| scope.spawn(|| record_rows(&recorder, &barrier, rows));
        let started: Vec<_> = (0..threads).map(spawn).collect();
        started
            .into_iter()
            .map(|thread| thread.join().unwrap())
            .max()
    });
    most.unwrap_or(0) / u128::from(rows)
}

fn main() {
    let number = |place: usize, none: u32| -> u32 {
        let word = std::env::args().nth(place);
        word.map_or(none, |word| word.parse().expect("a number"))
    };
    let (threads, rows) = (number(1, 1) as usize, number(2, 20_000));
    let kinds: [(&str, Mode, Clock); 4] = [
        ("profile, cycles", Mode::Profile, cycles),
        ("profile, wall clock", Mode::Profile, boc_record::wall_ns),
        ("audit, cycles", Mode::Audit, cycles),
        ("audit, wall clock", Mode::Audit, boc_record::wall_ns),
    ];
    for (name, mode, clock) in kinds {
        let least = (0..TRIES).map(|_| once(mode, clock, threads, rows)).min();
        println!("{name}: {} ns", least.unwrap_or(0));
    }
}
