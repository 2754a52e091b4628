//! Measures lowering by the proved library and by the plain implementation, on the same files, and prints a table.
//!
//! Each time is the best of many runs, in which the two sides take turns. The library is lent just the memory that its figures ask for; its
//! tables are as the run before left them, all 0. The plain side's memory is the most that its heap held at once.
use compare::generate::{sized, Shape};
use compare::reference::{self, Lent};
use desk::{Tables, RECORD_ROW, SCOPE_ROW, SYMBOL_ROW};
use std::alloc::{GlobalAlloc, Layout, System};
use std::hint::black_box;
use std::sync::atomic::{AtomicUsize, Ordering::Relaxed};
use std::time::{Duration, Instant};

/// The system's allocator, which counts what is held, and the most that was.
struct Counting;

static HELD: AtomicUsize = AtomicUsize::new(0);
static MOST: AtomicUsize = AtomicUsize::new(0);
static COUNTS: AtomicUsize = AtomicUsize::new(0);

// SAFETY: every call goes to the system's allocator as it is.
unsafe impl GlobalAlloc for Counting {
    unsafe fn alloc(&self, layout: Layout) -> *mut u8 {
        if COUNTS.load(Relaxed) != 0 {
            let held = HELD.fetch_add(layout.size(), Relaxed) + layout.size();
            MOST.fetch_max(held, Relaxed);
        }
        System.alloc(layout)
    }

    unsafe fn dealloc(&self, p: *mut u8, layout: Layout) {
        if COUNTS.load(Relaxed) != 0 {
            HELD.fetch_sub(layout.size(), Relaxed);
        }
        System.dealloc(p, layout)
    }
}

#[global_allocator]
static ALLOCATOR: Counting = Counting;

/// What the check keeps besides the lent tables: the counters of symbols. The marks of scope rows, before them, take less.
const COUNTERS: usize = 2 * 5_042;

const TIME: Duration = Duration::from_millis(150);

struct Lending {
    records: Vec<u16>,
    scopes: Vec<u16>,
    symbols: Vec<u16>,
    output: Vec<u8>,
}

impl Lending {
    fn new(f: &desk::Figures) -> Lending {
        Lending {
            records: vec![0; f.records as usize * RECORD_ROW],
            scopes: vec![0; f.scopes as usize * SCOPE_ROW],
            symbols: vec![0; f.symbols as usize * SYMBOL_ROW],
            output: vec![0; f.bytes as usize],
        }
    }

    fn bytes(&self) -> usize {
        2 * (self.records.len() + self.scopes.len() + self.symbols.len())
            + self.output.len()
            + COUNTERS
    }

    fn lower(&mut self, file: &[u8]) {
        let tables = Tables {
            records: &mut self.records,
            scopes: &mut self.scopes,
            symbols: &mut self.symbols,
        };
        desk::lower(file, tables, &mut self.output).expect("accepted");
    }
}

fn time(runs: u32, mut run: impl FnMut()) -> Duration {
    let start = Instant::now();
    for _ in 0..runs {
        run();
    }
    start.elapsed() / runs
}

/// The most that the heap held during a run.
fn most_held(run: impl FnOnce()) -> usize {
    HELD.store(0, Relaxed);
    MOST.store(0, Relaxed);
    COUNTS.store(1, Relaxed);
    run();
    COUNTS.store(0, Relaxed);
    MOST.load(Relaxed)
}

/// The best times of both, in turns.
fn both(mut one: impl FnMut(), mut other: impl FnMut()) -> (Duration, Duration) {
    let runs = (Duration::from_millis(2).as_nanos() / time(1, &mut one).as_nanos().max(1))
        .clamp(1, 500) as u32;
    let start = Instant::now();
    let mut best = (Duration::MAX, Duration::MAX);
    while start.elapsed() < 2 * TIME {
        best.0 = best.0.min(time(runs, &mut one));
        best.1 = best.1.min(time(runs, &mut other));
    }
    best
}

fn measure(shape: Shape, mode: u16, bytes: usize) {
    let file = sized(shape, mode, bytes);
    let figures = desk::figures(&file).expect("accepted");
    let mut lending = Lending::new(&figures);
    let lent = Lent {
        records: figures.records as usize,
        scopes: figures.scopes as usize,
        symbols: figures.symbols as usize,
        out: figures.bytes as usize,
    };
    let plain = |file: &[u8]| {
        black_box(reference::lower(black_box(file), lent)).expect("accepted");
    };
    lending.lower(&file);
    assert_eq!(
        lending.output,
        reference::lower(&file, lent).expect("accepted").0
    );
    let held = most_held(|| plain(&file));
    let memory = lending.bytes();
    let (ours, theirs) = both(|| lending.lower(black_box(&file)), || plain(&file));
    let us = |d: Duration| d.as_nanos() as f64 / 1000.0;
    println!(
        "| {} | {} | {} | {} | {} | {:.1} | {:.1} | {:.2} | {} | {} |",
        shape.name(),
        if mode == 0 { "runtime" } else { "external" },
        file.len(),
        figures.bytes,
        figures.contexts,
        us(ours),
        us(theirs),
        us(ours) / us(theirs),
        memory,
        held
    );
}

fn main() {
    println!("| shape | mode | bytes in | bytes out | contexts | here, µs | plain Rust, µs | ratio | memory here | memory plain |");
    println!("|---|---|---:|---:|---:|---:|---:|---:|---:|---:|");
    for shape in Shape::ALL {
        for mode in [0, 1] {
            for bytes in [1_000, 8_000, 60_000] {
                measure(shape, mode, bytes);
            }
        }
    }
}
