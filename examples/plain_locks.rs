//! Whole jobs behind locks in ordinary Rust, with nothing proved: the transfers and the slots of `crates/benches`, by the
//! same threads, with std's Mutex. It is what `docs/SPEED.md` compares with, and no part of the simulator.
//!
//!     rustc --edition 2021 -O -o /tmp/plain_locks examples/plain_locks.rs
//!     /tmp/plain_locks slots THOUSANDS     slots taken and freed, one lock around both banks, and one around each
//!     /tmp/plain_locks bank THOUSANDS      transfers between sixteen accounts in four shards, one lock around them all,
//!                                          and one around each shard
//!     /tmp/plain_locks groups SHARDS       transfers between two of so many shards, with and without work
//!
//! Each line has nanoseconds that pass for a job, by whichever thread: the median of five rounds.

use std::sync::Mutex;
use std::time::Instant;
use std::{env, hint, thread};

/// A value with nothing else on its cache lines.
#[repr(align(128))]
struct Padded<T>(T);

/// As the generator of that name in the crate rand_xoshiro.
struct SplitMix64(u64);

impl SplitMix64 {
    fn below(&mut self, bound: u8) -> u8 {
        self.0 = self.0.wrapping_add(0x9e37_79b9_7f4a_7c15);
        let mut z = self.0;
        z = (z ^ (z >> 30)).wrapping_mul(0xbf58_476d_1ce4_e5b9);
        z = (z ^ (z >> 27)).wrapping_mul(0x94d0_49bb_1331_11eb);
        ((z ^ (z >> 31)) % u64::from(bound)) as u8
    }
}

/// Transfers on threads, as `Workload` of the benchmarks has them. Without `hot` they are between any two shards; with it
/// each thread has shards of its own, and so many of a hundred transfers go to shard 0.
#[derive(Clone, Copy)]
struct Workload {
    shards: u8,
    hot: Option<u8>,
    rounds: u32,
    threads: u8,
    jobs: u32,
}

/// The shards that a thread's transfers come from.
struct Chooser {
    random: SplitMix64,
    first: u8,
    count: u8,
    hot: u8,
}

impl Chooser {
    fn new(workload: &Workload, thread: u8) -> Self {
        let random = SplitMix64(u64::from(thread));
        let (first, count) = match (workload.hot, (workload.shards - 1) / workload.threads) {
            (None, _) => (0, workload.shards),
            (Some(_), 0) => (1, workload.shards - 1),
            (Some(_), own) => (1 + thread * own, own),
        };
        Chooser { random, first, count, hot: workload.hot.unwrap_or(0) }
    }

    /// A shard and an account in it, twice.
    fn choose(&mut self) -> ([usize; 2], [usize; 2]) {
        let place = self.random.below(self.count);
        let to = if self.random.below(100) < self.hot || self.count == 1 {
            0
        } else {
            self.first + (place + 1 + self.random.below(self.count - 1)) % self.count
        };
        let mut account = |shard: u8| [usize::from(shard), usize::from(self.random.below(4))];
        (account(self.first + place), account(to))
    }
}

fn work(rounds: u32, seed: u64) -> u64 {
    (0..rounds).fold(seed | 1, |made, _| made.wrapping_mul(0x9e37_79b9_7f4a_7c15).rotate_left(7))
}

fn moved(from: u64, to: u64) -> (u64, u64) {
    if from == 0 || to == u64::MAX { (from, to) } else { (from - 1, to + 1) }
}

/// The accounts of a shard, and what work made.
#[derive(Clone, Copy)]
struct Shard {
    balances: [u64; 4],
    made: u64,
}

const OPEN: Shard = Shard { balances: [1_000_000; 4], made: 0 };

fn transfer_in_all(all: &Mutex<Vec<Shard>>, from: [usize; 2], to: [usize; 2], rounds: u32) {
    let mut all = all.lock().unwrap();
    let (left, has) = (all[from[0]].balances[from[1]], all[to[0]].balances[to[1]]);
    all[0].made = work(rounds, all[0].made);
    let (left, has) = moved(left, has);
    all[from[0]].balances[from[1]] = left;
    all[to[0]].balances[to[1]] = has;
}

fn transfer_between(shards: &[Padded<Mutex<Shard>>], from: [usize; 2], to: [usize; 2], rounds: u32) {
    let low = shards[from[0].min(to[0])].0.lock().unwrap();
    let high = shards[from[0].max(to[0])].0.lock().unwrap();
    let (mut one, mut other) = if from[0] < to[0] { (low, high) } else { (high, low) };
    let (left, has) = (one.balances[from[1]], other.balances[to[1]]);
    one.made = work(rounds, one.made);
    (one.balances[from[1]], other.balances[to[1]]) = moved(left, has);
}

/// Has threads make the workload's transfers. Returns nanoseconds that pass for a job.
fn transfers(workload: &Workload, transfer: impl Fn([usize; 2], [usize; 2]) + Sync) -> u64 {
    timed(workload.threads, workload.jobs, |thread| {
        let mut chooser = Chooser::new(workload, thread);
        for _ in 0..workload.jobs {
            let (from, to) = chooser.choose();
            transfer(from, to);
        }
    })
}

/// The nanoseconds that pass for a job, while each of so many threads does so many.
fn timed(threads: u8, jobs: u32, act: impl Fn(u8) + Sync) -> u64 {
    let start = Instant::now();
    thread::scope(|scope| {
        for number in 0..threads {
            let act = &act;
            scope.spawn(move || act(number));
        }
    });
    start.elapsed().as_nanos() as u64 / (u64::from(threads) * u64::from(jobs))
}

fn sum(shards: impl Iterator<Item = Shard>) -> u64 {
    shards.map(|shard| shard.balances.iter().sum::<u64>()).sum()
}

fn behind_one(workload: &Workload) -> u64 {
    let all = Mutex::new(vec![OPEN; workload.shards.into()]);
    let time = transfers(workload, |from, to| transfer_in_all(&all, from, to, workload.rounds));
    assert_eq!(sum(all.into_inner().unwrap().into_iter()), 4_000_000 * u64::from(workload.shards));
    time
}

fn behind_each(workload: &Workload) -> u64 {
    let shards: Vec<_> = (0..workload.shards).map(|_| Padded(Mutex::new(OPEN))).collect();
    let time = transfers(workload, |from, to| transfer_between(&shards, from, to, workload.rounds));
    assert_eq!(sum(shards.into_iter().map(|it| it.0.into_inner().unwrap())), 4_000_000 * u64::from(workload.shards));
    time
}

fn measure<const N: usize>(what: &str, ways: [(&str, &dyn Fn() -> u64); N]) {
    let mut times = [[0; 5]; N];
    for round in 0..5 {
        for (times, (_, way)) in times.iter_mut().zip(&ways) {
            times[round] = way();
        }
    }
    print!("{what}, ns a job:");
    for (times, (name, _)) in times.iter_mut().zip(&ways) {
        times.sort_unstable();
        print!(" {name} {}", times[2]);
    }
    println!();
}

fn measure_workload(what: &str, workload: &Workload) {
    let ways: [(&str, &dyn Fn() -> u64); 2] =
        [("one lock", &|| behind_one(workload)), ("a lock for each shard", &|| behind_each(workload))];
    measure(what, ways);
}

fn bank(thousands: u32) {
    for threads in [1, 2, 4] {
        let workload = Workload { shards: 4, hot: None, rounds: 0, threads, jobs: 1000 * thousands };
        measure_workload(&format!("{threads} threads"), &workload);
    }
}

fn groups(shards: u8) {
    let start = Instant::now();
    hint::black_box(work(hint::black_box(1_000_000), 1));
    let microsecond = 1_000_000_000 / start.elapsed().as_nanos() as u32;
    for (time, rounds) in [(0, 0), (1, microsecond)] {
        for hot in [0, 10, 50] {
            for threads in [1, 2, 4] {
                let workload = Workload { shards, hot: Some(hot), rounds, threads, jobs: if rounds == 0 { 600_000 } else { 60_000 } };
                measure_workload(&format!("{time} us of work, {hot} % at shard 0, {threads} threads"), &workload);
            }
        }
    }
}

/// The lowest free slot of a bank is taken.
fn take(word: &mut u64) -> Option<u32> {
    let slot = word.trailing_ones();
    (slot < 32).then(|| {
        *word |= 1 << slot;
        slot
    })
}

/// One of each bank is taken, if both have a free one.
fn take_both(lower: &mut u64, upper: &mut u64) -> [Option<u32>; 2] {
    if lower.trailing_ones() < 32 && upper.trailing_ones() < 32 {
        [take(lower), take(upper).map(|slot| 32 + slot)]
    } else {
        [None, None]
    }
}

fn free(word: &mut u64, slot: u32) {
    *word &= !(1 << (slot % 32));
}

/// A job of the slots.
#[derive(Clone, Copy)]
enum Job {
    Take,
    TakeBoth,
    Give(u32),
}

/// Each thread takes a slot, or the next time one of each bank, frees what it took, and so on.
fn slot_jobs(threads: u8, jobs: u32, do_job: impl Fn(Job) -> [Option<u32>; 2] + Sync) -> u64 {
    timed(threads, jobs, |_| {
        let mut held = [None, None];
        let mut takes_both = false;
        for _ in 0..jobs {
            if let Some(slot) = held[0] {
                do_job(Job::Give(slot));
                held = [held[1], None];
            } else {
                held = do_job(if takes_both { Job::TakeBoth } else { Job::Take });
                takes_both = !takes_both;
            }
        }
    })
}

fn banks_behind_one(threads: u8, jobs: u32) -> u64 {
    let banks = Mutex::new([0_u64; 2]);
    slot_jobs(threads, jobs, |job| {
        let [lower, upper] = &mut *banks.lock().unwrap();
        match job {
            Job::Take => [take(lower).or_else(|| take(upper).map(|slot| 32 + slot)), None],
            Job::TakeBoth => take_both(lower, upper),
            Job::Give(slot) => {
                free(if slot < 32 { lower } else { upper }, slot);
                [None, None]
            }
        }
    })
}

fn banks_behind_each(threads: u8, jobs: u32) -> u64 {
    let banks = [0; 2].map(|_| Padded(Mutex::new(0_u64)));
    let lock = |bank: usize| banks[bank].0.lock().unwrap();
    slot_jobs(threads, jobs, |job| match job {
        Job::Take => {
            let mut lower = lock(0);
            [take(&mut lower).or_else(|| take(&mut lock(1)).map(|slot| 32 + slot)), None]
        }
        Job::TakeBoth => {
            let mut lower = lock(0);
            take_both(&mut lower, &mut lock(1))
        }
        Job::Give(slot) => {
            free(&mut lock(slot as usize / 32), slot);
            [None, None]
        }
    })
}

fn slots(thousands: u32) {
    for threads in [1, 2, 4, 8] {
        let jobs = 1000 * thousands;
        measure(
            &format!("{threads} threads"),
            [
                ("one lock", &|| banks_behind_one(threads, jobs)),
                ("a lock for each bank", &|| banks_behind_each(threads, jobs)),
            ],
        );
    }
}

fn main() {
    let words: Vec<String> = env::args().collect();
    let number = |or: u32| words.get(2).and_then(|word| word.parse().ok()).unwrap_or(or);
    match words.get(1).map(String::as_str) {
        Some("slots") => slots(number(100)),
        Some("bank") => bank(number(100)),
        Some("groups") => groups(number(17).clamp(2, 64) as u8),
        _ => println!("usage: plain_locks slots | bank | groups, as its first lines say"),
    }
}
