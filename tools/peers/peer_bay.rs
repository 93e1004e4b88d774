//! What one takes in place of a bay: nanoseconds of an operation of a stack or a queue that threads share.
//!
//! `peer_bay ITEMS THREADS`: each of the threads puts ITEMS items and takes as many, one by one and in
//! whole runs of 32, as in `bay_bench stack ITEMS THREADS`. What is timed is the same too: the set-up of
//! the list, the start of the threads, all calls, and the end of the threads. A line for each goes to
//! standard output: `NAME threads T run R ns_per_op N`. It fails where an item that was put was not taken.
//!
//! `peer_bay readers CALLS THREADS`: each of the threads puts an item, and then looks CALLS times at the top
//! item of a stack. With `beside` one thread puts an item and takes one by turns, CALLS calls in all, and
//! each other thread looks CALLS times. What is timed is as in `bay_bench readers CALLS THREADS`: the calls
//! alone, from when all threads have come until all are done. It fails where a look finds no item.
use crossbeam_queue::{ArrayQueue, SegQueue};
use std::collections::VecDeque;
use std::process::ExitCode;
use std::sync::{Barrier, Mutex, RwLock};
use std::thread;
use std::time::Instant;

/// How many items a list has room for from the start: as many as a bay of 64 blocks has cells.
const ROOM: usize = 4096;

/// A list that threads share.
trait Shared: Sync {
    /// The name in the lines.
    const NAME: &'static str;

    /// An empty list.
    fn new() -> Self;

    /// Puts an item, and tells whether there was room.
    fn put(&self, item: u64) -> bool;

    /// Takes an item, where there is one.
    fn take(&self) -> Option<u64>;
}

impl Shared for Mutex<Vec<u64>> {
    const NAME: &'static str = "mutex_stack";

    fn new() -> Self {
        Mutex::new(Vec::with_capacity(ROOM))
    }

    fn put(&self, item: u64) -> bool {
        self.lock().unwrap().push(item);
        true
    }

    fn take(&self) -> Option<u64> {
        self.lock().unwrap().pop()
    }
}

impl Shared for Mutex<VecDeque<u64>> {
    const NAME: &'static str = "mutex_queue";

    fn new() -> Self {
        Mutex::new(VecDeque::with_capacity(ROOM))
    }

    fn put(&self, item: u64) -> bool {
        self.lock().unwrap().push_back(item);
        true
    }

    fn take(&self) -> Option<u64> {
        self.lock().unwrap().pop_front()
    }
}

impl Shared for ArrayQueue<u64> {
    const NAME: &'static str = "array_queue";

    fn new() -> Self {
        ArrayQueue::new(ROOM)
    }

    fn put(&self, item: u64) -> bool {
        self.push(item).is_ok()
    }

    fn take(&self) -> Option<u64> {
        self.pop()
    }
}

impl Shared for SegQueue<u64> {
    const NAME: &'static str = "seg_queue";

    fn new() -> Self {
        SegQueue::new()
    }

    fn put(&self, item: u64) -> bool {
        self.push(item);
        true
    }

    fn take(&self) -> Option<u64> {
        self.pop()
    }
}

/// A stack that threads share, and whose top item they may look at.
trait Seen: Sync {
    /// The name in the lines.
    const NAME: &'static str;

    /// An empty stack.
    fn new() -> Self;

    /// Puts an item.
    fn put(&self, item: u64);

    /// Takes an item, where there is one.
    fn take(&self) -> Option<u64>;

    /// The top item, where there is one.
    fn peek(&self) -> Option<u64>;
}

impl Seen for RwLock<Vec<u64>> {
    const NAME: &'static str = "rwlock";

    fn new() -> Self {
        RwLock::new(Vec::with_capacity(ROOM))
    }

    fn put(&self, item: u64) {
        self.write().unwrap().push(item);
    }

    fn take(&self) -> Option<u64> {
        self.write().unwrap().pop()
    }

    fn peek(&self) -> Option<u64> {
        self.read().unwrap().last().copied()
    }
}

impl Seen for Mutex<Vec<u64>> {
    const NAME: &'static str = "mutex";

    fn new() -> Self {
        Mutex::new(Vec::with_capacity(ROOM))
    }

    fn put(&self, item: u64) {
        self.lock().unwrap().push(item);
    }

    fn take(&self) -> Option<u64> {
        self.lock().unwrap().pop()
    }

    fn peek(&self) -> Option<u64> {
        self.lock().unwrap().last().copied()
    }
}

/// Makes the calls of one thread that looks, or of the one that writes, and answers how many found an item
/// or put one.
fn looks<L: Seen>(stack: &L, calls: u64, writes: bool) -> u64 {
    let mut made = 0;
    for call in 0..calls {
        made += match (writes, call % 2) {
            (true, 0) => {
                stack.put(call);
                1
            }
            (true, _) => u64::from(stack.take().is_some()),
            (false, _) => u64::from(stack.peek().is_some()),
        };
    }
    made
}

/// Times one stack, and tells whether each call put or found an item.
fn time_looks<L: Seen>(kind: &str, calls: u64, threads: u64) -> bool {
    let stack = L::new();
    let all_here = Barrier::new(threads as usize);
    let ran: Vec<(Instant, Instant, u64)> = thread::scope(|scope| {
        let one = |who: u64| {
            stack.put(who);
            all_here.wait();
            let start = Instant::now();
            let made = looks(&stack, calls, kind == "beside" && who == 0);
            (start, Instant::now(), made)
        };
        let started: Vec<_> = (0..threads).map(|who| scope.spawn(move || one(who))).collect();
        started.into_iter().map(|thread| thread.join().unwrap()).collect()
    });
    let made: u64 = ran.iter().map(|(_, _, made)| made).sum();
    let first = ran.iter().map(|(start, _, _)| *start).min();
    let last = ran.iter().map(|(_, end, _)| *end).max();
    let taken = match (first, last) {
        (Some(first), Some(last)) => (last - first).as_nanos() as f64,
        _ => 0.0,
    };
    println!(
        "{}_{kind} threads {threads} run 1 ns_per_op {:.1}",
        L::NAME,
        taken / (threads * calls).max(1) as f64
    );
    made == threads * calls
}

/// Makes the calls of one thread, and answers how many items it put and took.
fn calls<L: Shared>(list: &L, rounds: u64, run: u64) -> u64 {
    let mut made = 0;
    for _ in 0..rounds {
        for item in 0..run {
            made += u64::from(list.put(item));
        }
        for _ in 0..run {
            made += u64::from(list.take().is_some());
        }
    }
    made
}

/// Times one list, and tells whether each call put or took an item.
fn time<L: Shared>(items: u64, threads: u64, run: u64) -> bool {
    let rounds = items / run;
    let all = threads * rounds * run * 2;
    let start = Instant::now();
    let list = L::new();
    let made: u64 = thread::scope(|scope| {
        let started: Vec<_> = (0..threads)
            .map(|_| scope.spawn(|| calls(&list, rounds, run)))
            .collect();
        started.into_iter().map(|thread| thread.join().unwrap()).sum()
    });
    let taken = start.elapsed().as_nanos() as f64;
    println!(
        "{} threads {threads} run {run} ns_per_op {:.1}",
        L::NAME,
        taken / all.max(1) as f64
    );
    made == all
}

/// Times the stacks that are looked at, of a kind.
fn time_seen(kind: &str, calls: u64, threads: u64) -> bool {
    let read = time_looks::<RwLock<Vec<u64>>>(kind, calls, threads);
    let locked = time_looks::<Mutex<Vec<u64>>>(kind, calls, threads);
    read && locked
}

/// Times the lists into which items are put and from which they are taken.
fn time_lists(items: u64, threads: u64) -> bool {
    let mut whole = true;
    for run in [1, 32] {
        whole &= time::<Mutex<Vec<u64>>>(items, threads, run);
        whole &= time::<Mutex<VecDeque<u64>>>(items, threads, run);
        whole &= time::<ArrayQueue<u64>>(items, threads, run);
        whole &= time::<SegQueue<u64>>(items, threads, run);
    }
    whole
}

fn main() -> ExitCode {
    let words: Vec<String> = std::env::args().skip(1).collect();
    let kind = words.first().filter(|word| *word == "readers" || *word == "beside");
    let numbers: Vec<u64> = words[usize::from(kind.is_some())..]
        .iter()
        .filter_map(|word| word.parse().ok())
        .collect();
    let [items, threads] = numbers[..] else {
        eprintln!("usage: peer_bay [readers|beside] ITEMS THREADS");
        return ExitCode::from(2);
    };
    let whole = match kind {
        Some(kind) => time_seen(kind, items, threads),
        None => time_lists(items, threads),
    };
    if whole {
        ExitCode::SUCCESS
    } else {
        eprintln!("an item that was put was not found");
        ExitCode::FAILURE
    }
}
