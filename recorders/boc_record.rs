//! Records a run of behaviours (tasks) over cowns (concurrent owners), so that `boc` can analyse it: one file, for Rust 1.77 or later.
//!
//! docs/RECORDING.md says where the calls belong. In short, with the queues of all its cowns locked:
//!
//! ```ignore
//! behaviour.row = thread.spawn(parent.row, TRANSFER, queues.len(), &[]);
//! for (place, queue) in queues.iter_mut().enumerate() {
//!     thread.ask(behaviour.row, place, &mut queue.asked);
//! }
//! ```
//!
//! and around the body, while it holds its cowns:
//!
//! ```ignore
//! thread.start(behaviour.row);
//! (behaviour.body)();                             // thread.wrote(behaviour.row, place) if it writes its cown at this place
//! thread.end(behaviour.row, 0);                   // 1 if it failed
//! ```
//!
//! `Mode::Profile` shares nothing between threads: a spawn notes its turn at each cown, and `Recorder::write` finds an order of the events that keeps
//! them. `Mode::Audit` also numbers each event by one counter, so that the record has the order in which things happened and `boc check` can judge it.
#![forbid(unsafe_code)]
#![allow(dead_code)] // No runtime needs all of it.

use std::cmp::Reverse;
use std::collections::{BTreeMap, BinaryHeap, HashMap, HashSet};
use std::fmt;
use std::fs::File;
use std::io::{self, Write};
use std::ops::Range;
use std::sync::atomic::{AtomicBool, AtomicU64, AtomicUsize, Ordering};
use std::sync::OnceLock;
use std::time::Instant;

/// A clock: any number that grows with the time or the work of the thread that runs a body.
pub type Clock = fn() -> u64;

/// Nanoseconds of a monotonic clock.
pub fn wall_ns() -> u64 {
    static FIRST: OnceLock<Instant> = OnceLock::new();
    let passed = FIRST.get_or_init(Instant::now).elapsed();
    passed.as_secs() * 1_000_000_000 + u64::from(passed.subsec_nanos())
}

#[derive(Clone, Copy, Debug, PartialEq, Eq)]
pub enum Mode {
    Profile,
    Audit,
}

#[derive(Clone, Copy, Debug)]
pub struct Options {
    pub mode: Mode,
    pub clock: Clock,
    /// How much of the clock is a tick.
    pub unit: u64,
    /// How many bytes the events may take, in chunks of 64 KiB, of which each thread has its own.
    pub memory: usize,
    /// Whether each behaviour wrote only those cowns that `wrote` has named, and not all its cowns.
    pub knows_writes: bool,
}

impl Default for Options {
    fn default() -> Self {
        Options {
            mode: Mode::Profile,
            clock: wall_ns,
            unit: 1000,
            memory: 64 << 20,
            knows_writes: false,
        }
    }
}

/// A behaviour. The default is none, the parent of the first behaviour.
#[derive(Clone, Copy, Debug, Default, PartialEq, Eq)]
pub struct Row(u32);

impl Row {
    pub const NONE: Row = Row(0);
    /// A behaviour that is not recorded, since there is no memory for it or no recorder.
    const LOST: Row = Row(u32::MAX);
}

/// The code of a behaviour, as `Recorder::def` has registered it.
#[derive(Clone, Copy, Debug, Default, PartialEq, Eq)]
pub struct Def(u16);

/// What a cown of the runtime has for the recorder, next to its queue: its number, which the runtime chooses, and how many behaviours have asked for it.
#[derive(Debug)]
pub struct Cown {
    number: u32,
    turns: u32,
}

impl Cown {
    pub fn new(number: u32) -> Self {
        Cown { number, turns: 0 }
    }
}

/// What `Recorder::write` does differently.
#[derive(Clone, Copy, Debug, Default)]
pub struct How {
    /// Rows that wait are left out, and rows that run end: a run that hangs or crashed becomes a record.
    pub close: bool,
    /// Everything is written, also what is too much for `boc`.
    pub whole: bool,
}

/// Why a record has only the first rows.
#[derive(Clone, Copy, Debug, PartialEq, Eq)]
pub enum Bound {
    Rows,
    Cowns,
    Held,
}

impl fmt::Display for Bound {
    fn fmt(&self, to: &mut fmt::Formatter<'_>) -> fmt::Result {
        to.write_str(match self {
            Bound::Rows => "a record has at most 65,535",
            Bound::Cowns => "the next one makes more than 256 cowns that rows share",
            Bound::Held => "the next one makes a row with more than 8 cowns that rows share",
        })
    }
}

/// What `Recorder::write` did. As a text it is what is worth knowing of that, and empty if nothing is.
#[derive(Clone, Copy, Debug, Default)]
pub struct Report {
    /// Rows that were recorded.
    pub spawned: usize,
    /// Rows of the record.
    pub kept: usize,
    pub bound: Option<Bound>,
    /// Rows left out that had not started, if that was asked for.
    pub pending: usize,
    /// Rows left out, because a row before them is not in the buffers.
    pub broken: usize,
    /// Starts and ends of rows that could not start or end, in `Mode::Profile`.
    pub strange: usize,
    /// A tick is this many units: more than 1 if a row took over 1,000,000 units.
    pub scale: u64,
    /// The memory was used up, or `dump` called: later rows were not recorded.
    pub full: bool,
}

impl fmt::Display for Report {
    fn fmt(&self, to: &mut fmt::Formatter<'_>) -> fmt::Result {
        let Report {
            spawned,
            kept,
            pending,
            broken,
            strange,
            scale,
            ..
        } = self;
        if let Some(bound) = self.bound {
            writeln!(
                to,
                "boc_record: the first {kept} of {spawned} rows: {bound}"
            )?;
        }
        if self.full {
            writeln!(to, "boc_record: recording stopped after {spawned} rows, so the record is the run's beginning")?;
        }
        if *pending > 0 {
            writeln!(
                to,
                "boc_record: {pending} rows are left out that had not started"
            )?;
        }
        if *broken > 0 {
            writeln!(
                to,
                "boc_record: {broken} rows are left out since one before them is missing"
            )?;
        }
        if *strange > 0 {
            writeln!(to, "boc_record: {strange} starts or ends were out of place; record in audit mode to see where")?;
        }
        if *scale > 1 {
            writeln!(to, "boc_record: a tick is {scale} units of the clock's, since a row took more than 1,000,000")?;
        }
        Ok(())
    }
}

/// Why there is no record.
#[derive(Debug)]
pub enum Fault {
    NoRow,
    Contradicts,
    Device(io::Error),
}

impl fmt::Display for Fault {
    fn fmt(&self, to: &mut fmt::Formatter<'_>) -> fmt::Result {
        match self {
            Fault::NoRow => write!(to, "boc_record: nothing was recorded"),
            Fault::Contradicts => {
                write!(to, "boc_record: no order of the events keeps the turns at the cowns; record in audit mode to see where")
            }
            Fault::Device(error) => write!(to, "boc_record: {error}"),
        }
    }
}

impl std::error::Error for Fault {}

impl From<io::Error> for Fault {
    fn from(error: io::Error) -> Self {
        Fault::Device(error)
    }
}

const MOST_ROWS: usize = 65_535;
const MOST_COWNS: usize = 256;
const MOST_HELD: usize = 8;
const MOST_TICKS: u64 = 1_000_000;
const MOST_LINE: usize = 80;
const MOST_NAME: usize = 64;
/// The most cowns that a recorded row may have.
const MOST_ASKED: usize = 4096;

// A chunk is an array of words; the first word says how many are used. The others are slots, one for each row:
//
//     HEAD      words of the slot (16 bits), cowns (16), def (16), arguments (8), flags (8)
//     PARENT    the id of the parent's slot, 0 if it has none
//     OFFSET    what the parent's clock had counted at the spawn
//     LAST      the offset of its own last child
//     BEGAN     1 and the clock at its start, 0 before that
//     ENDED     its time times 8, and 1 and its status, 0 before its end
//     3 words   only `Mode::Audit`: 1 and the number of its spawn, of its start, of its end
//     cowns     number (32 bits), turn from 1 on (31), whether it was written (1)
//     arguments
//
// An id counts words over all chunks. Memory is taken at the spawn only, so a start and an end of a recorded row can always be recorded.
const WORDS: usize = 8192;
const HEAD: usize = 0;
const PARENT: usize = 1;
const OFFSET: usize = 2;
const LAST: usize = 3;
const BEGAN: usize = 4;
const ENDED: usize = 5;
const SPAWN_AT: usize = 6;
const WRITTEN: u64 = 1 << 63;
const IS_MAIN: u64 = 1 << 56;
const IS_OUTSIDE: u64 = 2 << 56;

#[derive(Clone, Copy, Debug, PartialEq, Eq, PartialOrd, Ord)]
enum Kind {
    Spawn,
    Start,
    End,
}

const KINDS: [Kind; 3] = [Kind::Spawn, Kind::Start, Kind::End];

/// Values that are set once, each at its time.
type Places<T> = Box<[OnceLock<T>]>;

/// A list that grows while others read it, without a lock.
struct Growing<T> {
    blocks: Places<Places<T>>,
    count: AtomicUsize,
}

const BLOCK: usize = 64;

impl<T> Growing<T> {
    fn new(most: usize) -> Self {
        Growing {
            blocks: (0..most.div_ceil(BLOCK)).map(|_| OnceLock::new()).collect(),
            count: AtomicUsize::new(0),
        }
    }

    /// Appends a value, and returns its place, or none if there are as many as there may be.
    fn push(&self, value: T) -> Option<usize> {
        let place = self.count.fetch_add(1, Ordering::Relaxed);
        let block = self.blocks.get(place / BLOCK)?;
        let block = block.get_or_init(|| (0..BLOCK).map(|_| OnceLock::new()).collect());
        block[place % BLOCK].set(value).ok().map(|()| place)
    }

    fn get(&self, place: usize) -> Option<&T> {
        self.blocks.get(place / BLOCK)?.get()?[place % BLOCK].get()
    }

    fn iter(&self) -> impl Iterator<Item = (usize, &T)> {
        let count = self
            .count
            .load(Ordering::Relaxed)
            .min(BLOCK * self.blocks.len());
        (0..count).filter_map(|place| Some((place, self.get(place)?)))
    }
}

/// A start or an end that has no place in its slot: of a row that was not spawned, or a second one.
struct Strange {
    number: u64,
    kind: Kind,
    row: Row,
}

/// A number that all threads count on, alone on its cache line.
#[repr(align(64))]
#[derive(Default)]
struct Counter(AtomicU64);

pub struct Recorder {
    options: Options,
    /// Words of a slot before its cowns.
    header: usize,
    chunks: Places<Box<[AtomicU64]>>,
    chunk_count: AtomicUsize,
    defs: Growing<String>,
    cowns: Growing<(u32, String)>,
    stranges: Growing<Strange>,
    strange_count: AtomicUsize,
    has_main: AtomicBool,
    stopped: AtomicBool,
    events: Counter,
}

impl Recorder {
    pub fn new(options: Options) -> Self {
        let most = (u32::MAX as usize / WORDS - 1).min(options.memory / (8 * WORDS));
        Recorder {
            options,
            header: if options.mode == Mode::Audit {
                SPAWN_AT + 3
            } else {
                SPAWN_AT
            },
            chunks: (0..most).map(|_| OnceLock::new()).collect(),
            chunk_count: AtomicUsize::new(0),
            defs: Growing::new(4096),
            cowns: Growing::new(1 << 20),
            stranges: Growing::new(BLOCK),
            strange_count: AtomicUsize::new(0),
            has_main: AtomicBool::new(false),
            stopped: AtomicBool::new(false),
            events: Counter::default(),
        }
    }

    /// Registers the code of a behaviour by its name, once for each function.
    pub fn def(&self, name: &str) -> Def {
        Def(self
            .defs
            .push(word_of(name))
            .map_or(u16::MAX, |place| place as u16))
    }

    /// Names a cown, once. `acct[0]` and `acct[1]` are members of an array.
    pub fn name_cown(&self, number: u32, name: &str) {
        self.cowns.push((number, word_of(name)));
    }

    /// The value for each thread to keep, also for one that only spawns.
    pub fn thread(&self) -> Thread<'_> {
        Thread {
            recorder: Some(self),
            chunk: &[],
            first: 0,
            used: WORDS,
        }
    }

    fn stop(&self) {
        self.stopped.store(true, Ordering::Relaxed);
    }

    fn slot(&self, row: Row) -> Option<&[AtomicU64]> {
        let id = row.0 as usize;
        self.chunks
            .get(id / WORDS)?
            .get()?
            .get(id % WORDS..)
            .filter(|_| row != Row::NONE)
    }

    /// The next number of an event, from 1 on; 0 in `Mode::Profile`.
    fn number(&self) -> u64 {
        match self.options.mode {
            Mode::Profile => 0,
            Mode::Audit => 1 + self.events.0.fetch_add(1, Ordering::Relaxed),
        }
    }

    fn note_strange(&self, number: u64, kind: Kind, row: Row) {
        self.strange_count.fetch_add(1, Ordering::Relaxed);
        self.stranges.push(Strange { number, kind, row });
    }

    /// The offset of the next child of a row. Offsets rise strictly.
    fn offset(&self, parent: Row) -> u64 {
        let Some(slot) = self.slot(parent) else {
            return 0;
        };
        if get(&slot[HEAD]) & IS_OUTSIDE != 0 {
            return 1 + slot[LAST].fetch_add(1, Ordering::Relaxed);
        }
        let (began, now) = (get(&slot[BEGAN]), 1 + (self.options.clock)());
        let passed = if began == 0 {
            0
        } else {
            now.saturating_sub(began)
        };
        let offset = passed.max(get(&slot[LAST]) + 1);
        put(&slot[LAST], offset);
        offset
    }

    fn chunk_numbers(&self) -> Range<usize> {
        0..self
            .chunk_count
            .load(Ordering::Relaxed)
            .min(self.chunks.len())
    }

    /// Stops recording spawns, and writes the buffers as they are, in a form of which boc_record.py makes a record. It takes no memory and no lock, so a
    /// signal handler may call it.
    pub fn dump(&self, mut file: &File) -> io::Result<()> {
        self.stopped.store(true, Ordering::SeqCst);
        let mut text = Text {
            file,
            used: 0,
            buffer: [0; 512],
        };
        let head = [
            u64::from(self.options.mode == Mode::Audit),
            u64::from(self.options.knows_writes),
            self.options.unit,
            self.events.0.load(Ordering::SeqCst),
            self.strange_count.load(Ordering::Relaxed) as u64,
        ];
        text.line("boc-buffers 1", &head, "")?;
        for (number, name) in self.defs.iter() {
            text.line("def", &[number as u64], name)?;
        }
        for (_, (number, name)) in self.cowns.iter() {
            text.line("cown", &[u64::from(*number)], name)?;
        }
        for (_, Strange { number, kind, row }) in
            self.stranges.iter().filter(|(_, one)| one.number != 0)
        {
            text.line("strange", &[*number, *kind as u64, u64::from(row.0)], "")?;
        }
        for number in self.chunk_numbers() {
            let Some(chunk) = self.chunks[number].get() else {
                continue;
            };
            let used = chunk[0].load(Ordering::Acquire);
            text.line("chunk", &[number as u64, used], "")?;
            text.flush()?;
            for words in chunk[..used as usize].chunks(32) {
                let mut bytes = [0; 8 * 32];
                for (word, place) in words.iter().zip(bytes.chunks_exact_mut(8)) {
                    place.copy_from_slice(&get(word).to_ne_bytes());
                }
                file.write_all(&bytes[..8 * words.len()])?;
            }
        }
        text.line("end", &[], "")?;
        text.flush()
    }
}

fn get(word: &AtomicU64) -> u64 {
    word.load(Ordering::Relaxed)
}

fn put(word: &AtomicU64, value: u64) {
    word.store(value, Ordering::Relaxed);
}

/// A text as `boc` takes it for a name: printable ASCII without blanks. Any other byte becomes `_`.
fn word_of(text: &str) -> String {
    let bytes = text.bytes().take(MOST_NAME);
    let word: String = bytes
        .map(|byte| {
            if byte.is_ascii_graphic() {
                char::from(byte)
            } else {
                '_'
            }
        })
        .collect();
    if word.is_empty() {
        "_".to_string()
    } else {
        word
    }
}

/// Lines on their way to a file, without memory of the heap.
struct Text<'a> {
    file: &'a File,
    used: usize,
    buffer: [u8; 512],
}

impl Text<'_> {
    fn line(&mut self, word: &str, numbers: &[u64], name: &str) -> io::Result<()> {
        self.put(word.as_bytes())?;
        for number in numbers {
            let (mut digits, mut at, mut rest) = ([0; 20], 20, *number);
            while rest > 0 || at == 20 {
                at -= 1;
                digits[at] = b'0' + (rest % 10) as u8;
                rest /= 10;
            }
            self.put(b" ")?;
            self.put(&digits[at..])?;
        }
        self.put(if name.is_empty() { b"" } else { b" " })?;
        self.put(name.as_bytes())?;
        self.put(b"\n")
    }

    fn put(&mut self, bytes: &[u8]) -> io::Result<()> {
        if self.used + bytes.len() > self.buffer.len() {
            self.flush()?;
        }
        self.buffer[self.used..self.used + bytes.len()].copy_from_slice(bytes);
        self.used += bytes.len();
        Ok(())
    }

    fn flush(&mut self) -> io::Result<()> {
        let used = std::mem::take(&mut self.used);
        self.file.write_all(&self.buffer[..used])
    }
}

/// A thread's own part of a recorder.
pub struct Thread<'a> {
    recorder: Option<&'a Recorder>,
    chunk: &'a [AtomicU64],
    /// The number of the chunk's first word.
    first: usize,
    used: usize,
}

impl<'a> Thread<'a> {
    /// A thread that records nothing.
    pub fn off() -> Self {
        Thread {
            recorder: None,
            chunk: &[],
            first: 0,
            used: WORDS,
        }
    }

    /// The recorder, if this row is recorded.
    fn recorder_of(&self, row: Row) -> Option<&'a Recorder> {
        self.recorder.filter(|_| row != Row::LOST)
    }

    /// The row 0 of a program whose threads spawn from outside the runtime: the parent of all that they spawn. Call it once, before any spawn.
    pub fn outside(&mut self) -> Row {
        let def = self
            .recorder
            .map_or(Def(0), |recorder| recorder.def("outside"));
        let row = self
            .spawn_flagged(Row::NONE, def, 0, &[], IS_OUTSIDE)
            .unwrap_or(Row::LOST);
        self.start(row);
        row
    }

    /// Records a spawn over this many cowns, while their queues are locked, on the thread that runs the parent. Arguments are shown with the def's name.
    pub fn spawn(&mut self, parent: Row, def: Def, cowns: usize, arguments: &[i64]) -> Row {
        self.spawn_flagged(parent, def, cowns, arguments, 0)
            .unwrap_or(Row::LOST)
    }

    fn spawn_flagged(
        &mut self,
        parent: Row,
        def: Def,
        cowns: usize,
        arguments: &[i64],
        mut flags: u64,
    ) -> Option<Row> {
        let recorder = self
            .recorder_of(parent)
            .filter(|recorder| !recorder.stopped.load(Ordering::Relaxed))?;
        let arguments = &arguments[..arguments.len().min(255)];
        if cowns > MOST_ASKED {
            recorder.stop();
            return None;
        }
        let words = recorder.header + cowns + arguments.len();
        if words > WORDS - self.used {
            self.take_chunk(recorder)?;
        }
        if parent == Row::NONE && !recorder.has_main.swap(true, Ordering::Relaxed) {
            flags |= IS_MAIN;
        }
        let slot = &self.chunk[self.used..self.used + words];
        let head = words as u64
            | (cowns as u64) << 16
            | u64::from(def.0) << 32
            | (arguments.len() as u64) << 48
            | flags;
        put(&slot[HEAD], head);
        put(&slot[PARENT], u64::from(parent.0));
        put(&slot[OFFSET], recorder.offset(parent));
        for (word, argument) in slot[recorder.header + cowns..].iter().zip(arguments) {
            put(word, *argument as u64);
        }
        if recorder.options.mode == Mode::Audit {
            put(&slot[SPAWN_AT], recorder.number());
        }
        let row = Row((self.first + self.used) as u32);
        self.used += words;
        self.chunk[0].store(self.used as u64, Ordering::Release);
        Some(row)
    }

    /// Gives the thread a new chunk. If there is none, no later spawn is recorded.
    fn take_chunk(&mut self, recorder: &'a Recorder) -> Option<()> {
        let number = recorder.chunk_count.fetch_add(1, Ordering::Relaxed);
        let Some(place) = recorder.chunks.get(number) else {
            recorder.stop();
            return None;
        };
        self.chunk = place.get_or_init(|| (0..WORDS).map(|_| AtomicU64::new(0)).collect());
        self.first = number * WORDS;
        self.used = 1;
        Some(())
    }

    /// Records its turn at a cown, while the queue of that is still locked: the place counts the behaviour's cowns from 0.
    pub fn ask(&self, row: Row, place: usize, cown: &mut Cown) {
        if let Some(word) = self.asked(row, place) {
            cown.turns += 1;
            put(word, u64::from(cown.number) | u64::from(cown.turns) << 32);
        }
    }

    /// The word of a row's cown, if the row is recorded and has a cown at this place.
    fn asked(&self, row: Row, place: usize) -> Option<&'a AtomicU64> {
        let recorder = self.recorder_of(row)?;
        let slot = recorder.slot(row)?;
        let has_place = place < (get(&slot[HEAD]) >> 16 & 0xffff) as usize;
        has_place.then(|| &slot[recorder.header + place])
    }

    /// Records the start, once all cowns are held.
    pub fn start(&self, row: Row) {
        let Some(recorder) = self.recorder_of(row) else {
            return;
        };
        let number = recorder.number();
        match recorder
            .slot(row)
            .filter(|slot| is_first(slot, Kind::Start, number))
        {
            None => recorder.note_strange(number, Kind::Start, row),
            Some(slot) => put(&slot[BEGAN], 1 + (recorder.options.clock)()),
        }
    }

    /// Records that the body writes the cown at this place.
    pub fn wrote(&self, row: Row, place: usize) {
        if let Some(word) = self.asked(row, place) {
            put(word, get(word) | WRITTEN);
        }
    }

    /// Records the end, while the cowns are still held. The status is 0, or 1 if the body failed.
    pub fn end(&self, row: Row, status: u8) {
        let Some(recorder) = self.recorder_of(row) else {
            return;
        };
        let now = 1 + (recorder.options.clock)();
        let number = recorder.number();
        let Some(slot) = recorder
            .slot(row)
            .filter(|slot| is_first(slot, Kind::End, number))
        else {
            return recorder.note_strange(number, Kind::End, row);
        };
        let began = get(&slot[BEGAN]);
        let passed = if began == 0 {
            0
        } else {
            now.saturating_sub(began)
        };
        put(
            &slot[ENDED],
            passed.max(get(&slot[LAST])) << 3 | u64::from(1 + status.min(6)),
        );
    }
}

/// Whether an event is the first of its kind in its slot, where its number, if it has one, is then put.
fn is_first(slot: &[AtomicU64], kind: Kind, number: u64) -> bool {
    match (number, kind) {
        (0, Kind::End) => get(&slot[BEGAN]) != 0 && get(&slot[ENDED]) == 0,
        (0, _) => get(&slot[BEGAN]) == 0,
        _ => slot[SPAWN_AT + kind as usize]
            .compare_exchange(0, number, Ordering::Relaxed, Ordering::Relaxed)
            .is_ok(),
    }
}

impl Recorder {
    /// Writes the record, and the names of its rows and cowns if there is a place for them. Other threads may still run.
    pub fn write(
        &self,
        record: &mut dyn Write,
        names: Option<&mut dyn Write>,
        how: How,
    ) -> Result<Report, Fault> {
        let events = self.events.0.load(Ordering::SeqCst);
        let mut run = Run::of(self);
        let mut report = Report {
            spawned: run.rows.len(),
            full: self.stopped.load(Ordering::Relaxed),
            ..Report::default()
        };
        if self.options.mode == Mode::Audit {
            run.order_by_number(self, events);
        } else {
            report.strange = self.strange_count.load(Ordering::Relaxed);
            run.leave_out_broken();
            run.order()?;
        }
        report.broken = run.rows.len() - run.number_rows();
        report.pending = run.close(how.close);
        let spawned = run.number_rows();
        (report.kept, report.bound) = if how.whole {
            (spawned, None)
        } else {
            run.fitting()
        };
        run.keep_first(report.kept, spawned);
        report.scale = run.scale(self.options.unit, how.whole);
        if spawned == 0 {
            return Err(Fault::NoRow);
        }
        let cowns = run.numbered_cowns(how.whole);
        run.print(record, self.options.knows_writes, &cowns, report.kept)?;
        if let Some(names) = names {
            run.print_names(names, self, &cowns)?;
        }
        Ok(report)
    }

    fn cown_names(&self) -> HashMap<u32, &str> {
        self.cowns
            .iter()
            .map(|(_, (number, name))| (*number, name.as_str()))
            .collect()
    }
}

/// A behaviour's turn at a cown.
struct Turn {
    number: u32,
    turn: u32,
    is_written: bool,
    /// Whether the turn before it at its cown is there, or it is the first.
    follows: bool,
    /// The other row that has the next turn there.
    next: Option<usize>,
}

/// A row on its way into the record.
struct One {
    id: u32,
    slot: Range<usize>,
    turns: Range<usize>,
    parent: Option<usize>,
    first_child: Option<usize>,
    next_child: Option<usize>,
    is_complete: bool,
    is_broken: bool,
    number: Option<usize>,
    /// How many events must come before its spawn, its start and its end.
    waits: [usize; 3],
}

#[derive(Clone, Copy)]
struct Event {
    kind: Kind,
    row: Option<usize>,
    /// In ticks: the offset of a spawn, the time of an end.
    ticks: u64,
}

/// The cowns of a record: of each number of the runtime the number there, and how many there are.
struct Cowns {
    numbers: BTreeMap<u32, usize>,
    count: usize,
}

struct Run {
    /// The slots, copied.
    words: Vec<u64>,
    header: usize,
    rows: Vec<One>,
    turns: Vec<Turn>,
    events: Vec<Event>,
    keeps_all: bool,
}

impl Run {
    /// Copies the slots, and makes a row of each.
    fn of(recorder: &Recorder) -> Self {
        let header = recorder.header;
        let mut run = Run {
            words: Vec::new(),
            header,
            rows: Vec::new(),
            turns: Vec::new(),
            events: Vec::new(),
            keeps_all: true,
        };
        for number in recorder.chunk_numbers() {
            let Some(chunk) = recorder.chunks[number].get() else {
                continue;
            };
            let used = chunk[0].load(Ordering::Acquire) as usize;
            let begin = run.words.len();
            run.words.extend(chunk[..used].iter().map(get));
            let mut at = 1;
            while at < used {
                at += run.take_slot((number * WORDS + at) as u32, begin + at);
            }
        }
        run.link_parents();
        run.link_turns();
        run
    }

    /// Takes the slot that begins at this word, and returns its length.
    fn take_slot(&mut self, id: u32, at: usize) -> usize {
        let head = self.words[at];
        let (length, cowns) = ((head & 0xffff) as usize, (head >> 16 & 0xffff) as usize);
        let first = self.turns.len();
        let asked = &self.words[at + self.header..at + self.header + cowns];
        self.turns.extend(asked.iter().map(|&word| Turn {
            number: word as u32,
            turn: (word >> 32) as u32 & !(1 << 31),
            is_written: word & WRITTEN != 0,
            follows: false,
            next: None,
        }));
        self.rows.push(One {
            id,
            slot: at..at + length,
            turns: first..first + cowns,
            parent: None,
            first_child: None,
            next_child: None,
            is_complete: self.turns[first..].iter().all(|turn| turn.turn > 0),
            is_broken: false,
            number: None,
            waits: [0; 3],
        });
        length
    }

    fn word(&self, row: usize, word: usize) -> u64 {
        self.words[self.rows[row].slot.start + word]
    }

    fn is_outside(&self, row: usize) -> bool {
        self.word(row, HEAD) & IS_OUTSIDE != 0
    }

    fn is_main(&self, row: usize) -> bool {
        self.word(row, HEAD) & IS_MAIN != 0
    }

    /// The row of an id. Rows are in the order of their ids.
    fn row_of(&self, id: u64) -> Option<usize> {
        self.rows
            .binary_search_by_key(&id, |row| u64::from(row.id))
            .ok()
    }

    fn link_parents(&mut self) {
        let mut children: Vec<(usize, u64, usize)> = Vec::new();
        for row in 0..self.rows.len() {
            let parent = self.row_of(self.word(row, PARENT));
            self.rows[row].parent = parent;
            self.rows[row].is_broken =
                !self.rows[row].is_complete || parent.is_none() && !self.is_main(row);
            children.extend(parent.map(|parent| (parent, self.word(row, OFFSET), row)));
        }
        children.sort_unstable();
        for siblings in children.chunk_by(|a, b| a.0 == b.0) {
            self.rows[siblings[0].0].first_child = Some(siblings[0].2);
            for both in siblings.windows(2) {
                self.rows[both[0].2].next_child = Some(both[1].2);
            }
        }
    }

    fn link_turns(&mut self) {
        let mut sorted: Vec<(u32, u32, usize, usize)> = Vec::with_capacity(self.turns.len());
        for (row, one) in self.rows.iter().enumerate() {
            sorted.extend(
                one.turns
                    .clone()
                    .map(|place| (self.turns[place].number, self.turns[place].turn, row, place)),
            );
        }
        sorted.retain(|turn| turn.1 > 0);
        sorted.sort_unstable();
        for turns in sorted.chunk_by(|a, b| a.0 == b.0) {
            self.turns[turns[0].3].follows = turns[0].1 == 1;
            for both in turns.windows(2) {
                self.turns[both[1].3].follows = both[1].1 == both[0].1 + 1;
                self.turns[both[0].3].next = Some(both[1].2).filter(|next| *next != both[0].2);
            }
        }
    }

    /// The rows that have the next turn at each of its cowns.
    fn after(&self, row: usize) -> Vec<usize> {
        self.turns[self.rows[row].turns.clone()]
            .iter()
            .filter_map(|turn| turn.next)
            .collect()
    }

    /// Leaves out rows if one before them is missing: at a cown, among the children of their parent, or the parent. Buffers that are read while threads
    /// go on may lack some.
    fn leave_out_broken(&mut self) {
        let breaks = |row: &One| {
            row.is_broken
                || self.turns[row.turns.clone()]
                    .iter()
                    .any(|turn| !turn.follows)
        };
        let mut stack: Vec<usize> = (0..self.rows.len())
            .filter(|&row| breaks(&self.rows[row]))
            .collect();
        for &row in &stack {
            self.rows[row].is_broken = true;
        }
        while let Some(row) = stack.pop() {
            let one = &self.rows[row];
            let more: Vec<usize> = self
                .after(row)
                .into_iter()
                .chain(one.first_child)
                .chain(one.next_child)
                .collect();
            for row in more {
                if !std::mem::replace(&mut self.rows[row].is_broken, true) {
                    stack.push(row);
                }
            }
        }
    }

    /// Whether an event of a row took place.
    fn happened(&self, row: usize, kind: Kind) -> bool {
        match kind {
            Kind::Spawn => true,
            Kind::Start => self.word(row, BEGAN) != 0,
            Kind::End => self.word(row, BEGAN) != 0 && self.word(row, ENDED) != 0,
        }
    }

    /// The clock at an event, as far as clocks of several threads can be compared.
    fn time_of(&self, row: usize, kind: Kind) -> u64 {
        match (kind, self.rows[row].parent) {
            (Kind::Spawn, Some(parent)) if !self.is_outside(parent) => {
                self.word(parent, BEGAN) + self.word(row, OFFSET)
            }
            (Kind::Spawn, _) => 0,
            (Kind::Start, _) => self.word(row, BEGAN),
            (Kind::End, _) => self.word(row, BEGAN) + (self.word(row, ENDED) >> 3),
        }
    }

    /// What each event waits for: a spawn for its parent's start or the child before it, and for the turns before; a start for its spawn, and for the ends
    /// of the turns before; an end for its start, and for the spawns of its children.
    fn count_waits(&mut self) {
        for row in (0..self.rows.len())
            .filter(|&row| !self.rows[row].is_broken)
            .collect::<Vec<_>>()
        {
            self.rows[row].waits[Kind::Start as usize] += 1;
            self.rows[row].waits[Kind::End as usize] += 1;
            if let Some(parent) = self.rows[row].parent {
                self.rows[row].waits[Kind::Spawn as usize] += 1;
                self.rows[parent].waits[Kind::End as usize] += 1;
            }
            for next in self.after(row) {
                self.rows[next].waits[Kind::Spawn as usize] += 1;
                self.rows[next].waits[Kind::Start as usize] += 1;
            }
        }
    }

    /// Which events wait for this one.
    fn released_by(&self, row: usize, kind: Kind) -> Vec<(usize, Kind)> {
        let one = &self.rows[row];
        match kind {
            Kind::Spawn => {
                let after = self.after(row).into_iter().map(|next| (next, Kind::Spawn));
                let parent = one.parent.map(|parent| (parent, Kind::End));
                let sibling = one.next_child.map(|next| (next, Kind::Spawn));
                after
                    .chain([(row, Kind::Start)])
                    .chain(parent)
                    .chain(sibling)
                    .collect()
            }
            Kind::Start => {
                let child = one.first_child.map(|child| (child, Kind::Spawn));
                [(row, Kind::End)].into_iter().chain(child).collect()
            }
            Kind::End => self
                .after(row)
                .into_iter()
                .map(|next| (next, Kind::Start))
                .collect(),
        }
    }

    /// Finds an order of the events that keeps the turns: of those that may come next, always the one with the earliest clock.
    fn order(&mut self) -> Result<(), Fault> {
        self.count_waits();
        let mut heap = BinaryHeap::new();
        let may_come = |run: &Run, row: usize, kind: Kind| {
            let one = &run.rows[row];
            let comes = !one.is_broken && one.waits[kind as usize] == 0 && run.happened(row, kind);
            comes.then(|| Reverse((run.time_of(row, kind), kind, row)))
        };
        heap.extend((0..self.rows.len()).filter_map(|row| may_come(self, row, Kind::Spawn)));
        while let Some(Reverse((_, kind, row))) = heap.pop() {
            self.events.push(Event {
                kind,
                row: Some(row),
                ticks: 0,
            });
            for (row, kind) in self.released_by(row, kind) {
                self.rows[row].waits[kind as usize] -= 1;
                heap.extend(may_come(self, row, kind));
            }
        }
        let whole: Vec<usize> = (0..self.rows.len())
            .filter(|&row| !self.rows[row].is_broken)
            .collect();
        let still_run: Vec<usize> = whole
            .iter()
            .copied()
            .filter(|&row| !self.happened(row, Kind::End))
            .collect();
        let lacks = self.events.len() < 3 * whole.len() - still_run.len();
        if lacks && still_run.iter().all(|&row| self.is_outside(row)) {
            return Err(Fault::Contradicts);
        }
        Ok(())
    }

    /// Puts the events in the order of their numbers, up to the first number whose event is not there yet.
    fn order_by_number(&mut self, recorder: &Recorder, events: u64) {
        let mut placed: Vec<Option<Event>> = vec![None; events as usize];
        let mut place = |number: u64, kind: Kind, row: Option<usize>| {
            if let Some(place) = placed.get_mut((number as usize).wrapping_sub(1)) {
                *place = Some(Event {
                    kind,
                    row,
                    ticks: 0,
                });
            }
        };
        for (row, one) in self.rows.iter().enumerate() {
            let is_there = [
                one.is_complete,
                self.word(row, BEGAN) != 0,
                self.word(row, ENDED) != 0,
            ];
            for kind in KINDS.into_iter().filter(|&kind| is_there[kind as usize]) {
                place(self.word(row, SPAWN_AT + kind as usize), kind, Some(row));
            }
        }
        for (_, Strange { number, kind, row }) in recorder.stranges.iter() {
            place(*number, *kind, self.row_of(u64::from(row.0)));
        }
        self.events = placed.into_iter().map_while(|event| event).collect();
    }

    /// Ends what still runs, and leaves out what has not started: of all rows, or of the row 0 of threads outside only. Returns how many are left out.
    fn close(&mut self, all: bool) -> usize {
        let (mut started, mut ended) = (vec![false; self.rows.len()], vec![false; self.rows.len()]);
        for event in &self.events {
            if let (Some(row), Kind::Start | Kind::End) = (event.row, event.kind) {
                (if event.kind == Kind::Start {
                    &mut started
                } else {
                    &mut ended
                })[row] = true;
            }
        }
        let is_pending = |event: &Event| all && event.row.is_some_and(|row| !started[row]);
        let pending = self
            .events
            .iter()
            .filter(|event| event.kind == Kind::Spawn && is_pending(event))
            .count();
        self.events.retain(|event| !is_pending(event));
        for row in 0..self.rows.len() {
            if started[row] && !ended[row] && (all || self.is_outside(row)) {
                self.events.push(Event {
                    kind: Kind::End,
                    row: Some(row),
                    ticks: 0,
                });
            }
        }
        pending
    }

    fn spawns(&self) -> impl Iterator<Item = usize> + '_ {
        self.events
            .iter()
            .filter(|event| event.kind == Kind::Spawn)
            .filter_map(|event| event.row)
    }

    /// Numbers the rows, and returns how many there are.
    fn number_rows(&mut self) -> usize {
        let spawns: Vec<usize> = self.spawns().collect();
        for (number, row) in spawns.iter().enumerate() {
            self.rows[*row].number = Some(number);
        }
        spawns.len()
    }

    /// How many of the first rows fit into a record, and why no more do. If not all cowns of the run do, only those count that rows share.
    fn fitting(&mut self) -> (usize, Option<Bound>) {
        let of_all: HashSet<u32> = self.turns.iter().map(|turn| turn.number).collect();
        self.keeps_all =
            of_all.len() <= MOST_COWNS && self.rows.iter().all(|row| row.turns.len() <= MOST_HELD);
        let mut first: HashMap<u32, (usize, usize)> = HashMap::new();
        let (mut shared, mut cowns, mut kept) = (vec![0; self.rows.len()], 0, 0);
        for row in self.spawns() {
            if kept == MOST_ROWS {
                return (kept, Some(Bound::Rows));
            }
            let mut holds_too_many = false;
            for turn in &self.turns[self.rows[row].turns.clone()] {
                let (owner, count) = first.entry(turn.number).or_insert((row, 0));
                *count += 1;
                cowns += usize::from(*count == 2);
                let both = [(*count == 2).then_some(*owner), (*count > 1).then_some(row)];
                for one in both.into_iter().flatten() {
                    shared[one] += 1;
                    holds_too_many |= shared[one] > MOST_HELD;
                }
            }
            if !self.keeps_all && cowns > MOST_COWNS {
                return (kept, Some(Bound::Cowns));
            } else if !self.keeps_all && holds_too_many {
                return (kept, Some(Bound::Held));
            }
            kept += 1;
        }
        (kept, None)
    }

    /// Keeps the events of the first rows, and those of no row if all rows are kept.
    fn keep_first(&mut self, kept: usize, spawned: usize) {
        let rows = &self.rows;
        self.events
            .retain(|event| match event.row.and_then(|row| rows[row].number) {
                Some(number) => number < kept,
                None => kept == spawned,
            });
    }

    /// The cowns of the record, by the runtime's numbers if those fit.
    fn numbered_cowns(&self, whole: bool) -> Cowns {
        let mut counts: BTreeMap<u32, usize> = BTreeMap::new();
        for row in self.spawns() {
            for turn in &self.turns[self.rows[row].turns.clone()] {
                *counts.entry(turn.number).or_default() += 1;
            }
        }
        counts.retain(|_, count| whole || self.keeps_all || *count > 1);
        let after_last = counts
            .last_key_value()
            .map_or(0, |(number, _)| *number as usize + 1);
        if whole || after_last <= MOST_COWNS {
            return Cowns {
                numbers: counts
                    .keys()
                    .map(|&number| (number, number as usize))
                    .collect(),
                count: after_last,
            };
        }
        Cowns {
            count: counts.len(),
            numbers: counts.into_keys().zip(0..).collect(),
        }
    }

    /// Counts ticks, of this many units of the clock, and returns the most of a spawn's offset or an end.
    fn measure(&mut self, unit: u64) -> u64 {
        let mut last = vec![0; self.rows.len()];
        let mut most = 0;
        for place in 0..self.events.len() {
            let Event {
                kind,
                row: Some(row),
                ..
            } = self.events[place]
            else {
                continue;
            };
            let ticks = match (kind, self.rows[row].parent) {
                (Kind::Spawn, Some(parent)) => {
                    let passed = if self.is_outside(parent) {
                        0
                    } else {
                        self.word(row, OFFSET) / unit
                    };
                    last[parent] = passed.max(last[parent] + 1);
                    last[parent]
                }
                (Kind::End, _) => {
                    let passed = if self.is_outside(row) {
                        0
                    } else {
                        (self.word(row, ENDED) >> 3) / unit
                    };
                    passed.max(last[row]).max(1)
                }
                _ => 0,
            };
            self.events[place].ticks = ticks;
            most = most.max(ticks);
        }
        most
    }

    /// Measures by the unit times the least of 1, 2, 5, 10, 20, 50 and so on that fits, and returns that.
    fn scale(&mut self, unit: u64, whole: bool) -> u64 {
        let scales = (0..13).flat_map(|tens| [1, 2, 5].map(|part| part * 10u64.pow(tens)));
        let mut scales =
            scales.skip_while(|scale| self.measure(unit * scale) > MOST_TICKS && !whole);
        scales.next().unwrap_or(1)
    }

    /// The numbers of a row's cowns in rising order, or only of those that it wrote.
    fn cowns_of(&self, row: usize, cowns: &Cowns, all: bool) -> Vec<usize> {
        let turns = self.turns[self.rows[row].turns.clone()]
            .iter()
            .filter(|turn| all || turn.is_written);
        let mut numbers: Vec<usize> = turns
            .filter_map(|turn| cowns.numbers.get(&turn.number).copied())
            .collect();
        numbers.sort_unstable();
        numbers
    }

    fn print(
        &self,
        to: &mut dyn Write,
        knows_writes: bool,
        cowns: &Cowns,
        kept: usize,
    ) -> io::Result<()> {
        writeln!(
            to,
            "boc {} {}",
            if knows_writes { 2 } else { 1 },
            cowns.count
        )?;
        for Event { kind, row, ticks } in &self.events {
            let number = row.and_then(|row| self.rows[row].number).unwrap_or(kept);
            let listed = match (kind, row) {
                (Kind::Spawn, Some(row)) => {
                    // A row that was not spawned has the number after those that a record may have.
                    let parent = self.rows[*row]
                        .parent
                        .and_then(|parent| self.rows[parent].number)
                        .unwrap_or(MOST_ROWS);
                    write!(
                        to,
                        "+ {number} {} {ticks}",
                        if self.is_main(*row) { 0 } else { parent }
                    )?;
                    self.cowns_of(*row, cowns, true)
                }
                (Kind::End, Some(row)) => {
                    write!(
                        to,
                        "< {number} {ticks} {}",
                        (self.word(*row, ENDED) & 7).saturating_sub(1)
                    )?;
                    if knows_writes {
                        self.cowns_of(*row, cowns, false)
                    } else {
                        Vec::new()
                    }
                }
                _ => {
                    let ticks = if *kind == Kind::End { " 0 0" } else { "" };
                    write!(
                        to,
                        "{} {number}{ticks}",
                        if *kind == Kind::End { '<' } else { '>' }
                    )?;
                    Vec::new()
                }
            };
            for cown in listed {
                write!(to, " {cown}")?;
            }
            writeln!(to)?;
        }
        writeln!(to, ".")?;
        to.flush()
    }

    fn print_names(
        &self,
        to: &mut dyn Write,
        recorder: &Recorder,
        cowns: &Cowns,
    ) -> io::Result<()> {
        let names = recorder.cown_names();
        for (number, place) in &cowns.numbers {
            match names.get(number) {
                Some(name) => writeln!(to, "@ {place} {name}")?,
                None => writeln!(to, "@ {place} cown[{number}]")?,
            }
        }
        for (number, row) in self.spawns().enumerate() {
            let head = self.word(row, HEAD);
            let def = recorder
                .defs
                .get((head >> 32 & 0xffff) as usize)
                .map_or("_", String::as_str);
            let mut line = format!("= {number} {def}");
            let first = self.header + self.rows[row].turns.len();
            for word in first..first + (head >> 48 & 0xff) as usize {
                let more = format!(" {}", self.word(row, word) as i64);
                if line.len() + more.len() > MOST_LINE {
                    break;
                }
                line += &more;
            }
            writeln!(to, "{line}")?;
        }
        to.flush()
    }
}
