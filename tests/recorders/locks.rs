//! Threads that take several locks at once, as behaviours over cowns: locks MODE THREADS ROWS COWNS HELD KIB HOW NAMES BUFFERS.
//!
//! The words are those of locks.c, and so is what it does.

#[path = "../../recorders/boc_record.rs"]
mod boc_record;

use boc_record::{Cown, Def, How, Mode, Options, Recorder, Row, Thread};
use std::cell::Cell;
use std::fs::File;
use std::sync::{Mutex, OnceLock};
use std::time::Duration;

struct Dumped {
    recorder: Recorder,
    buffers: File,
}

static DUMPED: OnceLock<Dumped> = OnceLock::new();

extern "C" {
    fn signal(signal: i32, handler: extern "C" fn(i32)) -> usize;
    fn ualarm(microseconds: u32, interval: u32) -> u32;
}

const SIGALRM: i32 = 14;

extern "C" fn dump(_: i32) {
    if let Some(Dumped { recorder, buffers }) = DUMPED.get() {
        let _ = recorder.dump(buffers);
    }
}

thread_local! {
    static SHIFT: Cell<u64> = const { Cell::new(0) };
}

/// A clock that differs in each thread, as processor time does.
fn skewed_ns() -> u64 {
    boc_record::wall_ns() + SHIFT.get()
}

struct Random(u64);

impl Random {
    fn next(&mut self) -> u32 {
        self.0 ^= self.0 << 13;
        self.0 ^= self.0 >> 7;
        self.0 ^= self.0 << 17;
        (self.0 >> 16) as u32
    }
}

fn take_and_release(
    thread: &mut Thread,
    outside: Row,
    defs: [Def; 2],
    locks: &[Mutex<Cown>],
    held: u32,
    random: &mut Random,
) {
    let wanted = random.next() % (held + 1);
    let chosen = (0..wanted).map(|_| random.next() as usize % locks.len());
    let mut chosen: Vec<usize> = chosen.collect();
    chosen.sort_unstable();
    chosen.dedup();
    let arguments = [chosen.len() as i64, -i64::from(random.next())];
    let mut cowns: Vec<_> = chosen.iter().map(|&at| locks[at].lock().unwrap()).collect();
    let row = thread.spawn(outside, defs[0], cowns.len(), &arguments);
    for (place, cown) in cowns.iter_mut().enumerate() {
        thread.ask(row, place, cown);
    }
    thread.start(row);
    for place in (0..cowns.len()).step_by(2) {
        thread.wrote(row, place);
    }
    let has_child = random.next() & 3 == 0;
    let child = has_child.then(|| thread.spawn(row, defs[1], 0, &[]));
    thread.end(row, (cowns.len() % 2) as u8);
    drop(cowns);
    if let Some(child) = child {
        thread.start(child);
        thread.end(child, 0);
    }
}

fn main() -> Result<(), Box<dyn std::error::Error>> {
    let words: Vec<String> = std::env::args().skip(1).collect();
    let [mode, numbers @ .., names, buffers] = words.as_slice() else {
        return Err("nine words".into());
    };
    let numbers: Result<Vec<u32>, _> = numbers.iter().map(|word| word.parse()).collect();
    let [threads, rows, cowns, held, kib, how] = numbers?[..] else {
        return Err("nine words".into());
    };
    let mode = if mode == "audit" {
        Mode::Audit
    } else {
        Mode::Profile
    };
    let recorder = Recorder::new(Options {
        mode,
        clock: if words[0] == "skewed" {
            skewed_ns
        } else {
            boc_record::wall_ns
        },
        memory: kib as usize * 1024,
        knows_writes: true,
        ..Options::default()
    });
    let by_alarm = buffers.ends_with(".alarm");
    let is_midway = buffers.ends_with(".midway");
    let is_live = buffers.ends_with(".live");
    let buffers = File::create(buffers)?;
    let Dumped { recorder, .. } = DUMPED.get_or_init(|| Dumped { recorder, buffers });
    let defs = [
        recorder.def("transfer \x1b[31m of a name that is longer than the sixty-four bytes which a name may have"),
        recorder.def(""),
    ];
    for number in (0..cowns).filter(|number| number % 3 != 0) {
        recorder.name_cown(number, &format!("a lock[{number}]"));
    }
    let locks: Vec<Mutex<Cown>> = (0..cowns)
        .map(|number| Mutex::new(Cown::new(number)))
        .collect();
    let how = How {
        close: how & 1 != 0,
        whole: how & 2 != 0,
    };
    let mut names = std::io::BufWriter::new(File::create(names)?);
    let mut write = || {
        let mut record = std::io::BufWriter::new(std::io::stdout().lock());
        recorder.write(&mut record, Some(&mut names), how)
    };
    let outside = recorder.thread().outside();
    if by_alarm {
        // SAFETY: the handler takes no memory and no lock.
        unsafe {
            signal(SIGALRM, dump);
            ualarm(1000, 0);
        }
    }
    let live = std::thread::scope(|scope| {
        for number in 0..threads {
            let locks = &locks;
            scope.spawn(move || {
                SHIFT.set(u64::from(number) << 40);
                let mut thread = recorder.thread();
                let mut random = Random(88_172_645_463_325_252 + 7919 * u64::from(number));
                for _ in 0..rows {
                    take_and_release(&mut thread, outside, defs, locks, held, &mut random);
                }
            });
        }
        if is_midway || is_live {
            std::thread::sleep(Duration::from_millis(1));
        }
        if is_midway {
            dump(SIGALRM);
        }
        is_live.then(&mut write)
    });
    match live.unwrap_or_else(&mut write) {
        Ok(report) => eprint!("{report}"),
        Err(fault) => {
            eprintln!("{fault}");
            std::process::exit(1);
        }
    }
    if !by_alarm && !is_midway {
        dump(SIGALRM);
    }
    Ok(())
}
