//! A bank on a small runtime of behaviours by threads: `rustc --edition 2021 -O bank.rs`, and then
//! `./bank [THREADS] [--long ROWS] [--audit] [--names FILE]`.
//!
//! It writes the record of its run to standard output, and what its rows and cowns are called to FILE. recorders/boc_record.rs records;
//! docs/RECORDING.md says where its calls belong. A tick is a microsecond.
//!
//! With --long there are twenty thousand accounts, and a thousand transfers in the ten hours of a day; each hour writes into one log. There are as many days
//! as make at least so many rows. That is too much for a record: `boc cut` cuts a window out of it, and `boc why` says of that window that the log is what
//! limits the run.

#[path = "../../recorders/boc_record.rs"]
mod boc_record;

use boc_record::{Def, How, Mode, Options, Recorder, Row, Thread};
use std::collections::VecDeque;
use std::sync::atomic::{AtomicUsize, Ordering};
use std::sync::{Arc, Condvar, Mutex};
use std::time::{Duration, Instant};

/// A run that takes longer hangs.
const PATIENCE: Duration = Duration::from_secs(10);

/// A number, and the behaviours that asked for it.
struct Cown {
    name: String,
    /// Only the behaviour that holds the cown locks its value, so no thread ever waits for this lock.
    value: Mutex<i64>,
    queue: Mutex<Queue>,
}

/// The first behaviour here holds the cown, or will hold it once it has its other cowns too.
struct Queue {
    waiting: VecDeque<Arc<Behaviour>>,
    asked: boc_record::Cown,
}

type Body = fn(&mut Running, &[i64]);

const CODES: [(&str, Body); 9] = [
    ("main", main_body),
    ("day", day),
    ("transfer", transfer),
    ("audit", audit),
    ("main", long_main),
    ("day", long_day),
    ("hour", hour),
    ("move", long_transfer),
    ("note", note),
];
const MAIN: usize = 0;
const DAY: usize = 1;
const TRANSFER: usize = 2;
const AUDIT: usize = 3;
const LONG_MAIN: usize = 4;
const LONG_DAY: usize = 5;
const HOUR: usize = 6;
const MOVE: usize = 7;
const NOTE: usize = 8;

/// A body with its arguments and its cowns, from its spawn to its end.
struct Behaviour {
    body: Body,
    arguments: Vec<i64>,
    /// The numbers of its cowns, as its body has them.
    cowns: Vec<usize>,
    row: Row,
    missing: AtomicUsize,
}

impl Behaviour {
    /// Takes this many more cowns, and returns whether none is missing any more.
    fn gets(&self, count: usize) -> bool {
        self.missing.fetch_sub(count, Ordering::AcqRel) == count
    }
}

/// The places of cowns in the order of their numbers, in which they are locked.
fn rising(cowns: &[usize]) -> Vec<usize> {
    let mut places: Vec<usize> = (0..cowns.len()).collect();
    places.sort_unstable_by_key(|&place| cowns[place]);
    places
}

/// A behaviour as its body sees it: the body reads and writes its cowns, by their places in the list, and spawns others.
struct Running<'a, 'b> {
    runtime: &'b Runtime<'a>,
    thread: &'b mut Thread<'a>,
    behaviour: &'b Behaviour,
}

impl Running<'_, '_> {
    fn read(&self, place: usize) -> i64 {
        *self.runtime.cowns[self.behaviour.cowns[place]]
            .value
            .lock()
            .unwrap()
    }

    fn write(&mut self, place: usize, value: i64) {
        let cown = self.behaviour.cowns[place];
        *self.runtime.cowns[cown].value.lock().unwrap() = value;
        self.thread.wrote(self.behaviour.row, place);
    }

    /// Spawns a behaviour, and continues at once.
    fn when(&mut self, code: usize, arguments: &[i64], cowns: &[usize]) {
        self.runtime
            .spawn(self.thread, self.behaviour.row, code, arguments, cowns);
    }
}

/// The behaviours that have all their cowns, and how many there are that have not ended.
#[derive(Default)]
struct Work {
    ready: VecDeque<Arc<Behaviour>>,
    alive: usize,
}

struct Runtime<'a> {
    cowns: Vec<Cown>,
    recorder: &'a Recorder,
    defs: [Def; CODES.len()],
    work: Mutex<Work>,
    work_changed: Condvar,
}

impl<'a> Runtime<'a> {
    fn new(recorder: &'a Recorder, cowns: impl Iterator<Item = (String, i64)>) -> Self {
        let cown = |(number, (name, value)): (u32, (String, i64))| Cown {
            name,
            value: Mutex::new(value),
            queue: Mutex::new(Queue {
                waiting: VecDeque::new(),
                asked: boc_record::Cown::new(number),
            }),
        };
        let cowns: Vec<Cown> = (0..).zip(cowns).map(cown).collect();
        for (number, cown) in (0..).zip(&cowns) {
            recorder.name_cown(number, &cown.name);
        }
        Runtime {
            cowns,
            recorder,
            defs: CODES.map(|(name, _)| recorder.def(name)),
            work: Mutex::default(),
            work_changed: Condvar::new(),
        }
    }

    /// Runs a main body, and all that it spawns.
    fn run(&'a self, threads: usize, code: usize, arguments: &[i64], patience: Duration) {
        let main = &mut self.recorder.thread();
        self.spawn(main, Row::NONE, code, arguments, &[]);
        let began = Instant::now();
        std::thread::scope(|scope| {
            for _ in 0..threads {
                scope.spawn(|| self.serve_all());
            }
            let mut work = self.work.lock().unwrap();
            while work.alive > 0 && began.elapsed() < patience {
                work = self.work_changed.wait_timeout(work, patience).unwrap().0;
            }
            if work.alive > 0 {
                // Threads that wait for ever can't be joined.
                print_record(self.recorder, None, How::default());
                std::process::exit(1);
            }
        });
    }

    /// Makes a behaviour, and has it ask for all its cowns at once.
    fn spawn(
        &self,
        thread: &mut Thread<'_>,
        parent: Row,
        code: usize,
        arguments: &[i64],
        cowns: &[usize],
    ) {
        self.work.lock().unwrap().alive += 1;
        // Spawns take the locks of several queues in the order of the cowns, so no two wait for each other.
        let places = rising(cowns);
        let lock = |&place: &usize| self.cowns[cowns[place]].queue.lock().unwrap();
        let mut queues: Vec<_> = places.iter().map(lock).collect();
        let row = thread.spawn(parent, self.defs[code], cowns.len(), arguments);
        let behaviour = Arc::new(Behaviour {
            body: CODES[code].1,
            arguments: arguments.to_vec(),
            cowns: cowns.to_vec(),
            row,
            missing: AtomicUsize::new(cowns.len() + 1), // one more until all locks are free again
        });
        let mut held = 1;
        for (queue, &place) in queues.iter_mut().zip(&places) {
            thread.ask(row, place, &mut queue.asked);
            queue.waiting.push_back(behaviour.clone());
            held += usize::from(queue.waiting.len() == 1);
        }
        drop(queues);
        if behaviour.gets(held) {
            self.make_ready(behaviour);
        }
    }

    fn make_ready(&self, behaviour: Arc<Behaviour>) {
        self.work.lock().unwrap().ready.push_back(behaviour);
        self.work_changed.notify_all();
    }

    fn serve_all(&self) {
        let mut thread = self.recorder.thread();
        while let Some(behaviour) = self.next() {
            self.serve(&mut thread, &behaviour);
            let mut work = self.work.lock().unwrap();
            work.alive -= 1;
            if work.alive == 0 {
                self.work_changed.notify_all();
            }
        }
    }

    /// A behaviour that is ready, or none once all have ended.
    fn next(&self) -> Option<Arc<Behaviour>> {
        let work = self.work.lock().unwrap();
        let mut work = self
            .work_changed
            .wait_while(work, |work| work.ready.is_empty() && work.alive > 0)
            .unwrap();
        work.ready.pop_front()
    }

    fn serve<'b>(&'b self, thread: &'b mut Thread<'a>, behaviour: &'b Behaviour) {
        // It has all its cowns: the ends of all behaviours that had one of them before are recorded.
        thread.start(behaviour.row);
        let mut running = Running {
            runtime: self,
            thread,
            behaviour,
        };
        (behaviour.body)(&mut running, &behaviour.arguments);
        // The end comes before a cown is released: the next start on it may be recorded at once.
        thread.end(behaviour.row, 0);
        self.release(behaviour);
    }

    /// Each cown goes to the next behaviour that asked for it.
    fn release(&self, behaviour: &Behaviour) {
        for place in rising(&behaviour.cowns) {
            let mut queue = self.cowns[behaviour.cowns[place]].queue.lock().unwrap();
            queue.waiting.pop_front();
            if let Some(next) = queue.waiting.front().filter(|next| next.gets(1)) {
                self.make_ready(next.clone());
            }
        }
    }
}

const ACCOUNTS: usize = 12;
const LOG: usize = ACCOUNTS;
const TOTAL: usize = ACCOUNTS + 1;
const DAYS: i64 = 3;

fn main_body(running: &mut Running, _: &[i64]) {
    running.when(DAY, &[1], &[]);
}

/// A day has as many transfers as there are accounts, and an audit of each half of them at its end.
fn day(running: &mut Running, arguments: &[i64]) {
    let number = arguments[0];
    for from in 0..ACCOUNTS {
        let to = (from + 1 + 5 * number as usize % (ACCOUNTS - 1)) % ACCOUNTS;
        running.when(TRANSFER, &[10 + from as i64], &[from, to, LOG]);
    }
    for half in [[0, 1, 2, 3, 4, 5, TOTAL], [6, 7, 8, 9, 10, 11, TOTAL]] {
        running.when(AUDIT, &[number], &half);
    }
    if number < DAYS {
        running.when(DAY, &[number + 1], &[]);
    }
}

/// Moves an amount if there is enough, and writes a line into the log.
fn transfer(running: &mut Running, arguments: &[i64]) {
    let amount = arguments[0];
    std::thread::sleep(Duration::from_micros(100));
    if running.read(0) >= amount {
        running.write(0, running.read(0) - amount);
        running.write(1, running.read(1) + amount);
    }
    running.write(2, running.read(2) + 1);
}

fn audit(running: &mut Running, _: &[i64]) {
    std::thread::sleep(Duration::from_micros(200));
    let sum: i64 = (0..6).map(|place| running.read(place)).sum();
    running.write(6, running.read(6) + sum);
}

/// A long run has so many accounts, so many hours a day, and as many transfers an hour.
const LONG_ACCOUNTS: usize = 20_000;
const LONG_LOG: usize = LONG_ACCOUNTS;
const HOURS: i64 = 10;
const MOVES: usize = 100;

fn long_main(running: &mut Running, arguments: &[i64]) {
    running.when(LONG_DAY, &[1, arguments[0]], &[]);
}

fn long_day(running: &mut Running, arguments: &[i64]) {
    for number in 0..HOURS {
        running.when(HOUR, &[arguments[0], number, arguments[1]], &[]);
    }
}

/// The next day begins when the line of the last hour is in the log.
fn hour(running: &mut Running, arguments: &[i64]) {
    let hour = (arguments[0] * HOURS + arguments[1]) as usize;
    for number in 0..MOVES {
        let from = (hour * 7919 + number * 17) % LONG_ACCOUNTS;
        let to = (from + 1 + number * 31 % 9973) % LONG_ACCOUNTS;
        running.when(MOVE, &[1], &[from, to]);
    }
    let is_last = arguments[1] + 1 == HOURS;
    let left = if is_last { arguments[2] - 1 } else { 0 };
    running.when(NOTE, &[arguments[0], left], &[LONG_LOG]);
}

fn long_transfer(running: &mut Running, arguments: &[i64]) {
    running.write(0, running.read(0) - arguments[0]);
    running.write(1, running.read(1) + arguments[0]);
}

fn note(running: &mut Running, arguments: &[i64]) {
    std::thread::sleep(Duration::from_micros(1000));
    running.write(0, running.read(0) + 1);
    if arguments[1] > 0 {
        running.when(LONG_DAY, &[arguments[0] + 1, arguments[1]], &[]);
    }
}

struct Words {
    threads: usize,
    long: Option<i64>,
    mode: Mode,
    names: Option<String>,
}

fn words() -> Result<Words, &'static str> {
    let mut asked = Words {
        threads: 4,
        long: None,
        mode: Mode::Profile,
        names: None,
    };
    let mut words = std::env::args().skip(1);
    while let Some(word) = words.next() {
        match word.as_str() {
            "--audit" => asked.mode = Mode::Audit,
            "--names" => asked.names = Some(words.next().ok_or("--names takes a file")?),
            "--long" => asked.long = words.next().and_then(|word| word.parse().ok()),
            _ => {
                asked.threads = word
                    .parse()
                    .ok()
                    .filter(|number| (1..=64).contains(number))
                    .ok_or("usage: bank [THREADS] [--long ROWS] [--audit] [--names FILE]")?;
            }
        }
    }
    Ok(asked)
}

fn print_record(recorder: &Recorder, names: Option<&str>, how: How) {
    let mut file = names.map(|name| std::fs::File::create(name).expect("the file of names"));
    let names = file.as_mut().map(|file| file as &mut dyn std::io::Write);
    let mut record = std::io::BufWriter::new(std::io::stdout().lock());
    match recorder.write(&mut record, names, how) {
        Ok(report) => eprint!("{report}"),
        Err(fault) => eprintln!("{fault}"),
    }
}

fn main() -> Result<(), Box<dyn std::error::Error>> {
    let asked = words()?;
    let memory = if asked.long.is_some() {
        2 << 30
    } else {
        64 << 20
    };
    let recorder = Recorder::new(Options {
        mode: asked.mode,
        knows_writes: true,
        memory,
        ..Options::default()
    });
    let count = if asked.long.is_some() {
        LONG_ACCOUNTS
    } else {
        ACCOUNTS
    };
    let accounts = (0..count).map(|number| (format!("acct[{number}]"), 100));
    let others = [("log".to_string(), 0), ("total".to_string(), 0)];
    let runtime = Runtime::new(&recorder, accounts.chain(others));
    match asked.long {
        Some(rows) => {
            let days = 1 + rows / (HOURS * MOVES as i64);
            runtime.run(asked.threads, LONG_MAIN, &[days], PATIENCE * 100);
        }
        None => runtime.run(asked.threads, MAIN, &[], PATIENCE),
    }
    let how = How {
        whole: asked.long.is_some(),
        ..How::default()
    };
    print_record(&recorder, asked.names.as_deref(), how);
    Ok(())
}
