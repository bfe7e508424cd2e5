//! The same steps in ordinary Rust, with nothing proved: calls out of the example office, each dialled,
//! completed and released, by the same atomic operations on the same 453 words. It is what `docs/SPEED.md`
//! compares with, and no part of the simulator.
//!
//!     rustc --edition 2021 -O -o /tmp/plain_steps examples/plain_steps.rs
//!     /tmp/plain_steps lone CALLS            one marker, one call after another
//!     /tmp/plain_steps whole JOBS THREADS    THREADS threads that dial and release, each from a line of its own, with
//!                                            one lock around each job: nobody else is at the words, so no
//!                                            connector is seized
//!     /tmp/plain_steps live CALLS MARKERS    MARKERS threads that dial and as many that complete calls,
//!                                            with three calls under way at once at most; timed
//!                                            from their queueing to their records in turn order
//!     /tmp/plain_steps calls MARKERS < ROWS  what `crossbar5 live` writes, by MARKERS threads of each kind; the
//!                                            calls aren't paced, and the records aren't audited
//!     /tmp/plain_steps replay < ROWS         what `crossbar5 replay` writes for jobs that are done whole, one
//!                                            after another, on words that no threads share
//!
//! A job is one function that makes its steps in order; it can't be stopped between two of them, as the
//! simulator's can. It has the example plan and calls out of the office alone: rows with other calls are
//! refused with status 101. `examples/plain_steps.sh` compares it with the program on the examples.

use std::cell::Cell;
use std::collections::VecDeque;
use std::fmt;
use std::io::{self, Read, Write};
use std::sync::atomic::{AtomicU64, Ordering::SeqCst};
use std::sync::{Condvar, Mutex};
use std::time::Instant;
use std::{env, thread};

#[derive(Clone, Copy, PartialEq)]
enum Conn {
    Llf(usize),
    Tlf(usize),
    Group(usize),
}

impl Conn {
    fn word(self) -> usize {
        match self {
            Conn::Llf(l) => 416 + l,
            Conn::Tlf(t) => 426 + t,
            Conn::Group(g) => 436 + g,
        }
    }
}

#[derive(Clone, Copy)]
struct Line {
    frame: usize,
    switch: usize,
    x: u64,
}

#[derive(Clone, Copy, PartialEq)]
struct Place {
    frame: usize,
    switch: usize,
    appearance: u64,
}

impl fmt::Display for Line {
    fn fmt(&self, f: &mut fmt::Formatter) -> fmt::Result {
        let (group, file) = (self.x / 5, self.x % 5);
        write!(f, "{}{}{group}{file}", self.frame, self.switch)
    }
}

#[derive(Clone, Copy)]
struct Path {
    line: Line,
    channel: usize,
    place: Place,
}

impl fmt::Display for Path {
    fn fmt(&self, f: &mut fmt::Formatter) -> fmt::Result {
        let Place {
            frame,
            switch,
            appearance,
        } = self.place;
        write!(
            f,
            "{}-{}-{frame}{switch}{appearance}",
            self.line, self.channel
        )
    }
}

#[derive(Clone, Copy)]
struct Call<'a> {
    call_no: u32,
    line: Line,
    digits: &'a str,
    release: bool,
}

enum End {
    DialTone(Path),
    Connected(Path),
    Released(Path),
    LineBusy,
    Busy,
    NoPath,
    NoRegister,
    NoCall,
}

impl End {
    /// How many paths a job of this kind adds with this end, or takes away.
    fn new_paths(&self, kind: u8) -> i32 {
        match self {
            End::DialTone(_) => 1,
            End::Released(_) => -1,
            End::Busy if kind == 1 => -1,
            _ => 0,
        }
    }
}

struct Record {
    turn: u64,
    marker: u64,
    job_no: u32,
    end: End,
}

fn place(number: usize) -> Place {
    Place {
        frame: number / 100,
        switch: number / 10 % 10,
        appearance: (number % 10) as u64,
    }
}

struct Plan {
    groups: [Vec<Place>; 4],
}

fn example() -> Plan {
    let group = |numbers: &[usize]| numbers.iter().map(|n| place(*n)).collect();
    Plan {
        groups: [
            group(&[417, 418, 509]),
            group(&[]),
            group(&[800]),
            group(&[801, 902]),
        ],
    }
}

fn line_switch(line: Line) -> usize {
    20 * line.frame + line.switch
}
fn line_junctor(frame: usize, channel: usize) -> usize {
    20 * frame + 10 + channel
}
fn trunk_junctor(frame: usize, channel: usize) -> usize {
    200 + 20 * frame + 10 + channel
}
fn trunk_switch(place: Place) -> usize {
    200 + 20 * place.frame + place.switch
}

fn find(word: u64, width: usize, value: u64) -> Option<usize> {
    let mask = (1 << width) - 1;
    (0..10).find(|field| word >> (width * field) & mask == value)
}

/// A word by itself, or one that threads share.
trait Word {
    /// Whether others may change the word during a job, so that its connector has to be seized.
    const SHARED: bool = true;
    fn load(&self) -> u64;
    fn or(&self, bits: u64) -> u64;
    fn and(&self, mask: u64);
    fn add_one(&self) -> u64;
    fn exchange(&self, expected: u64, new: u64) -> Result<u64, u64>;
}

impl Word for AtomicU64 {
    fn load(&self) -> u64 {
        self.load(SeqCst)
    }
    fn or(&self, bits: u64) -> u64 {
        self.fetch_or(bits, SeqCst)
    }
    fn and(&self, mask: u64) {
        self.fetch_and(mask, SeqCst);
    }
    fn add_one(&self) -> u64 {
        self.fetch_add(1, SeqCst)
    }
    fn exchange(&self, expected: u64, new: u64) -> Result<u64, u64> {
        self.compare_exchange(expected, new, SeqCst, SeqCst)
    }
}

impl Word for Cell<u64> {
    fn load(&self) -> u64 {
        self.get()
    }
    fn or(&self, bits: u64) -> u64 {
        self.replace(self.get() | bits)
    }
    fn and(&self, mask: u64) {
        self.set(self.get() & mask);
    }
    fn add_one(&self) -> u64 {
        self.replace(self.get() + 1)
    }
    fn exchange(&self, expected: u64, new: u64) -> Result<u64, u64> {
        let found = self.get();
        if found != expected {
            return Err(found);
        }
        self.set(new);
        Ok(found)
    }
}

/// A word that nobody else is at during a job.
struct Apart(Cell<u64>);

impl Word for Apart {
    const SHARED: bool = false;
    fn load(&self) -> u64 {
        self.0.load()
    }
    fn or(&self, bits: u64) -> u64 {
        self.0.or(bits)
    }
    fn and(&self, mask: u64) {
        self.0.and(mask);
    }
    fn add_one(&self) -> u64 {
        self.0.add_one()
    }
    fn exchange(&self, expected: u64, new: u64) -> Result<u64, u64> {
        self.0.exchange(expected, new)
    }
}

struct Denied;

/// A marker's attempt: what it holds, on these words.
struct Attempt<'a, W> {
    words: &'a [W],
    marker: u64,
    held: Vec<Conn>,
    read: Vec<(usize, u64)>,
    steps: u64,
}

impl<W: Word> Attempt<'_, W> {
    fn judge(&self, word: u64) -> bool {
        word & 63 == 0 && word >> 8 & ((1 << self.marker) - 1) == 0
    }

    fn deny(&mut self, conn: Conn) -> Denied {
        self.words[conn.word()].and(!(1 << (8 + self.marker)));
        self.steps += 1;
        self.free_all();
        self.read.clear();
        Denied
    }

    fn free_all(&mut self) {
        for conn in self.held.drain(..) {
            self.words[conn.word()].and(!63);
            self.steps += 1;
        }
    }

    fn seize(&mut self, conn: Conn) -> Result<(), Denied> {
        if !W::SHARED || self.held.contains(&conn) {
            return Ok(());
        }
        let bit = 1 << (8 + self.marker);
        let word = &self.words[conn.word()];
        let mut expected = word.or(bit) | bit;
        self.steps += 1;
        loop {
            if !self.judge(expected) {
                return Err(self.deny(conn));
            }
            self.steps += 1;
            match word.exchange(expected, expected & !bit | (self.marker + 1)) {
                Ok(_) => {
                    self.held.push(conn);
                    return Ok(());
                }
                Err(found) => expected = found,
            }
        }
    }

    fn test(&mut self, word: usize) -> u64 {
        if !W::SHARED {
            return self.words[word].load();
        }
        if let Some((_, value)) = self.read.iter().find(|(read, _)| *read == word) {
            return *value;
        }
        self.steps += 1;
        let value = self.words[word].load();
        self.read.push((word, value));
        value
    }

    fn turn(&mut self) -> u64 {
        self.steps += 1;
        self.words[452].add_one()
    }

    fn or(&mut self, word: usize, bits: u64) {
        self.steps += 1;
        self.words[word].or(bits);
    }

    fn and(&mut self, word: usize, mask: u64) {
        self.steps += 1;
        self.words[word].and(mask);
    }

    fn close(&mut self, path: &Path) {
        let Path {
            line,
            channel,
            place,
        } = *path;
        self.or(line_switch(line), (1 + line.x) << (6 * channel));
        self.or(
            line_junctor(line.frame, channel),
            (1 + line.switch as u64) << (4 * place.frame),
        );
        self.or(
            trunk_junctor(place.frame, channel),
            (1 + place.switch as u64) << (4 * line.frame),
        );
        self.or(trunk_switch(place), (1 + place.appearance) << (4 * channel));
    }

    fn open(&mut self, path: &Path) {
        let Path {
            line,
            channel,
            place,
        } = *path;
        self.and(line_switch(line), !(63 << (6 * channel)));
        self.and(
            line_junctor(line.frame, channel),
            !(15 << (4 * place.frame)),
        );
        self.and(
            trunk_junctor(place.frame, channel),
            !(15 << (4 * line.frame)),
        );
        self.and(trunk_switch(place), !(15 << (4 * channel)));
    }

    fn trace(&mut self, line: Line) -> Result<Option<Path>, Denied> {
        self.seize(Conn::Llf(line.frame))?;
        let word = self.test(line_switch(line));
        let Some(channel) = find(word, 6, 1 + line.x) else {
            return Ok(None);
        };
        let word = self.test(line_junctor(line.frame, channel));
        let Some(frame) = find(word, 4, 1 + line.switch as u64) else {
            return Ok(None);
        };
        self.seize(Conn::Tlf(frame))?;
        let switch =
            (self.test(trunk_junctor(frame, channel)) >> (4 * line.frame) & 15) as usize - 1;
        let number = 200 + 20 * frame + switch;
        let appearance = (self.test(number) >> (4 * channel) & 15) - 1;
        Ok(Some(Path {
            line,
            channel,
            place: Place {
                frame,
                switch,
                appearance,
            },
        }))
    }

    /// The first idle member of a group.
    fn idle(&mut self, plan: &Plan, group: usize) -> Result<Option<usize>, Denied> {
        self.seize(Conn::Group(group))?;
        let word = self.test(400 + group);
        Ok((0..plan.groups[group].len()).find(|index| word >> index & 1 == 0))
    }

    /// A channel to a place, with the crosspoints of a path as if it were open.
    fn channel(
        &mut self,
        line: Line,
        place: Place,
        without: Option<&Path>,
    ) -> Result<Option<usize>, Denied> {
        self.seize(Conn::Tlf(place.frame))?;
        let trunk = self.test(trunk_switch(place));
        let mut junctors = [0; 10];
        for (channel, word) in junctors.iter_mut().enumerate() {
            *word = self.test(line_junctor(line.frame, channel));
        }
        let mut own = self.test(line_switch(line));
        let mut trunk = trunk;
        if let Some(path) = without {
            own &= !(63 << (6 * path.channel));
            junctors[path.channel] &= !(15 << (4 * path.place.frame));
            if trunk_switch(path.place) == trunk_switch(place) {
                trunk &= !(15 << (4 * path.channel));
            }
        }
        Ok((0..10).find(|n| {
            own >> (6 * n) & 63 == 0
                && junctors[*n] >> (4 * place.frame) & 15 == 0
                && trunk >> (4 * n) & 15 == 0
        }))
    }

    fn dial(&mut self, plan: &Plan, line: Line) -> Result<(u64, End), Denied> {
        self.seize(Conn::Llf(line.frame))?;
        let word = self.test(line_switch(line));
        if find(word, 6, 1 + line.x).is_some() {
            return Ok((self.turn(), End::LineBusy));
        }
        let Some(index) = self.idle(plan, 0)? else {
            return Ok((self.turn(), End::Busy));
        };
        let place = plan.groups[0][index];
        let Some(channel) = self.channel(line, place, None)? else {
            return Ok((self.turn(), End::NoPath));
        };
        let path = Path {
            line,
            channel,
            place,
        };
        let turn = self.turn();
        self.close(&path);
        self.or(400, 1 << index);
        Ok((turn, End::DialTone(path)))
    }

    fn complete(&mut self, plan: &Plan, line: Line) -> Result<(u64, End), Denied> {
        let Some(own) = self.trace(line)? else {
            return Ok((self.turn(), End::NoRegister));
        };
        let Some(register) = plan.groups[0].iter().position(|p| *p == own.place) else {
            return Ok((self.turn(), End::NoRegister));
        };
        self.seize(Conn::Group(0))?;
        let mut found = None;
        for group in [2, 3] {
            if let Some(index) = self.idle(plan, group)? {
                found = Some((group, index));
                break;
            }
        }
        let mut made = None;
        if let Some((group, index)) = found {
            let place = plan.groups[group][index];
            if let Some(channel) = self.channel(line, place, Some(&own))? {
                made = Some((
                    group,
                    index,
                    Path {
                        line,
                        channel,
                        place,
                    },
                ));
            }
        }
        let turn = self.turn();
        self.open(&own);
        self.and(400, !(1 << register));
        let Some((group, index, path)) = made else {
            return Ok((turn, End::Busy));
        };
        self.close(&path);
        self.or(400 + group, 1 << index);
        Ok((turn, End::Connected(path)))
    }

    fn release(&mut self, plan: &Plan, line: Line) -> Result<(u64, End), Denied> {
        let Some(own) = self.trace(line)? else {
            return Ok((self.turn(), End::NoCall));
        };
        let at = (0..4).find_map(|g| {
            plan.groups[g]
                .iter()
                .position(|p| *p == own.place)
                .map(|i| (g, i))
        });
        let Some((group, index)) = at else {
            return Ok((self.turn(), End::NoCall));
        };
        self.seize(Conn::Group(group))?;
        let turn = self.turn();
        self.open(&own);
        self.and(400 + group, !(1 << index));
        Ok((turn, End::Released(own)))
    }

    fn do_job(&mut self, plan: &Plan, kind: u8, line: Line, job_no: u32) -> Record {
        loop {
            let tried = match kind {
                0 => self.dial(plan, line),
                1 => self.complete(plan, line),
                _ => self.release(plan, line),
            };
            match tried {
                Ok((turn, end)) => {
                    self.free_all();
                    self.read.clear();
                    return Record {
                        turn,
                        marker: self.marker,
                        job_no,
                        end,
                    };
                }
                Err(Denied) => thread::yield_now(),
            }
        }
    }
}

fn attempt<W: Word>(words: &[W], marker: u64) -> Attempt<'_, W> {
    Attempt {
        words,
        marker,
        held: Vec::with_capacity(if W::SHARED { 19 } else { 0 }),
        read: Vec::with_capacity(if W::SHARED { 42 } else { 0 }),
        steps: 0,
    }
}

struct Queue<T> {
    items: Mutex<VecDeque<T>>,
    came: Condvar,
}

impl<T> Queue<T> {
    fn new() -> Self {
        Queue {
            items: Mutex::new(VecDeque::new()),
            came: Condvar::new(),
        }
    }
    fn put(&self, item: T) {
        self.items.lock().unwrap().push_back(item);
        self.came.notify_one();
    }
    fn try_take(&self) -> Option<T> {
        self.items.lock().unwrap().pop_front()
    }
    fn take(&self) -> T {
        let mut items = self.items.lock().unwrap();
        loop {
            if let Some(item) = items.pop_front() {
                return item;
            }
            items = self.came.wait(items).unwrap();
        }
    }
}

struct Pace {
    under_way: AtomicU64,
    most: u64,
}

impl Pace {
    fn begin(&self) {
        for _ in 0..1_000_000 {
            if self.under_way.fetch_add(1, SeqCst) < self.most {
                return;
            }
            self.end();
            thread::yield_now();
        }
    }
    fn end(&self) {
        self.under_way.fetch_sub(1, SeqCst);
    }
}

fn call_at(n: usize) -> Call<'static> {
    Call {
        call_no: n as u32,
        line: Line {
            frame: n % 10,
            switch: n / 10 % 10,
            x: (n / 100 % 3) as u64,
        },
        digits: "5551234",
        release: true,
    }
}

enum Task<'a> {
    Complete(Call<'a>),
    Stop,
}

/// The words that threads share, the queues between them, and how many calls may be under way.
struct Floor<'a> {
    plan: Plan,
    words: Vec<AtomicU64>,
    first: Queue<Call<'a>>,
    second: Queue<Task<'a>>,
    pace: Pace,
}

impl<'a> Floor<'a> {
    fn new(calls: impl Iterator<Item = Call<'a>>, most: u64) -> Self {
        let floor = Floor {
            plan: example(),
            words: (0..453).map(|_| AtomicU64::new(0)).collect(),
            first: Queue::new(),
            second: Queue::new(),
            pace: Pace {
                under_way: AtomicU64::new(0),
                most,
            },
        };
        for call in calls {
            floor.first.put(call);
        }
        floor
    }

    /// Dials calls until there are none left, and gives the records and the number of steps.
    fn dial_all(&self, marker: u64) -> (Vec<Record>, u64) {
        let mut own = attempt(&self.words, marker);
        let mut records = Vec::new();
        while let Some(call) = self.first.try_take() {
            self.pace.begin();
            let record = own.do_job(&self.plan, 0, call.line, 3 * call.call_no);
            if matches!(record.end, End::DialTone(_)) {
                self.second.put(Task::Complete(call));
            }
            records.push(record);
        }
        (records, own.steps)
    }

    /// Completes and releases calls until it is told to stop.
    fn complete_all(&self, marker: u64) -> (Vec<Record>, u64) {
        let mut own = attempt(&self.words, marker);
        let mut records = Vec::new();
        while let Task::Complete(call) = self.second.take() {
            let record = own.do_job(&self.plan, 1, call.line, 3 * call.call_no + 1);
            self.pace.end();
            let connected = matches!(record.end, End::Connected(_));
            records.push(record);
            if connected && call.release {
                records.push(own.do_job(&self.plan, 2, call.line, 3 * call.call_no + 2));
            }
        }
        (records, own.steps)
    }

    /// Has all calls done by so many threads of each kind, and gives the records in turn order.
    fn work(&self, count: u64) -> (Vec<Record>, u64) {
        let (mut records, steps) = thread::scope(|scope| {
            let completing: Vec<_> = (0..count)
                .map(|k| scope.spawn(move || self.complete_all(count + k)))
                .collect();
            let dialling: Vec<_> = (0..count)
                .map(|k| scope.spawn(move || self.dial_all(k)))
                .collect();
            let mut all = (Vec::new(), 0);
            let mut gather = |(mut records, steps): (Vec<Record>, u64)| {
                all.0.append(&mut records);
                all.1 += steps;
            };
            for thread in dialling {
                gather(thread.join().unwrap());
            }
            for _ in 0..count {
                self.second.put(Task::Stop);
            }
            for thread in completing {
                gather(thread.join().unwrap());
            }
            all
        });
        records.sort_unstable_by_key(|record| record.turn);
        assert_eq!(self.words[452].load(SeqCst), records.len() as u64);
        (records, steps)
    }
}

/// Does calls, from the first queue's filling to their records in turn order.
fn live(calls: usize, count: u64, most: u64) {
    let start = Instant::now();
    let floor = Floor::new((0..calls).map(call_at), most);
    let (records, steps) = floor.work(count);
    let jobs = records.len();
    let time = start.elapsed().as_nanos() as u64;
    println!(
        "{count} and {count}, {most} calls at once: {} ns a job of {jobs}, {} steps a job",
        time / jobs as u64,
        steps as f64 / jobs as f64
    );
}

fn call_of(row: &str) -> Option<Call<'_>> {
    let mut fields = row.strip_prefix("C,")?.split(',');
    Some(Call {
        call_no: fields.next()?.parse().ok()?,
        line: line_of(fields.next()?)?,
        digits: fields.next()?,
        release: fields.next()? == "R",
    })
}

/// What comes of the calls of these rows, as text.
fn text_of_calls(rows: &str, count: u64) -> Option<Vec<u8>> {
    let calls: Vec<Call> = rows.lines().map(call_of).collect::<Option<_>>()?;
    let mut at = vec![0; 10_000];
    for (place, call) in calls.iter().enumerate() {
        *at.get_mut(call.call_no as usize)? = place;
    }
    let (records, _) = Floor::new(calls.iter().copied(), u64::MAX).work(count);
    let mut out = Vec::new();
    let mut paths = 0;
    for record in &records {
        let call = &calls[at[record.job_no as usize / 3]];
        let kind = (record.job_no % 3) as u8;
        let job = Asked {
            job_no: record.job_no,
            kind,
            line: call.line,
            digits: if kind == 1 { call.digits } else { "-" },
        };
        paths += record.end.new_paths(kind);
        write_record(&mut out, &job, record).ok()?;
    }
    writeln!(out, "PATHS,{paths}\nCLOSED,{}", 4 * paths).ok()?;
    Some(out)
}

/// Has threads dial and release `jobs` times each, from a line of its own, each job whole under one lock.
fn whole(jobs: u32, threads: u64) {
    let plan = example();
    let words: Mutex<Vec<Apart>> = Mutex::new((0..453).map(|_| Apart(Cell::new(0))).collect());
    let start = Instant::now();
    thread::scope(|scope| {
        for marker in 0..threads {
            let (plan, words) = (&plan, &words);
            let line = Line {
                frame: marker as usize % 10,
                switch: 0,
                x: 0,
            };
            scope.spawn(move || {
                for job in 0..jobs {
                    let words = words.lock().unwrap();
                    attempt(&words, marker).do_job(plan, (job % 2 * 2) as u8, line, job);
                }
            });
        }
    });
    let time = start.elapsed().as_nanos() as u64;
    println!("{threads} threads, a lock for each job: {} ns a job", time / u64::from(jobs));
}

fn lone(calls: usize) {
    let plan = example();
    let words: Vec<AtomicU64> = (0..453).map(|_| AtomicU64::new(0)).collect();
    let line = Line {
        frame: 3,
        switch: 0,
        x: 21,
    };
    let start = Instant::now();
    let mut own = attempt(&words, 0);
    let mut records = Vec::new();
    for n in 0..calls as u32 {
        for kind in 0..3 {
            records.push(own.do_job(&plan, kind, line, 3 * n + u32::from(kind)));
        }
    }
    let time = start.elapsed().as_nanos() as u64;
    println!(
        "lone: {} steps, {} ns a step, {} ns a job",
        own.steps,
        time / own.steps,
        time / records.len() as u64
    );
}

/// A job as a row has it.
#[derive(Clone, Copy)]
struct Asked<'a> {
    job_no: u32,
    kind: u8,
    line: Line,
    digits: &'a str,
}

fn line_of(text: &str) -> Option<Line> {
    let number: usize = text.parse().ok()?;
    let (group, file) = (number / 10 % 10, number % 10);
    (text.len() == 4 && group <= 5 && file <= 4).then_some(Line {
        frame: number / 1000,
        switch: number / 100 % 10,
        x: (5 * group + file) as u64,
    })
}

fn job_of<'a>(number: &str, kind: &str, operand: &'a str) -> Option<Asked<'a>> {
    let (line, digits) = operand.split_once(' ').unwrap_or((operand, "-"));
    if kind == "C" && !digits.starts_with("555") {
        return None;
    }
    Some(Asked {
        job_no: number.parse().ok()?,
        kind: "DCR".find(kind)? as u8,
        line: line_of(line)?,
        digits,
    })
}

fn write_record(out: &mut Vec<u8>, job: &Asked, record: &Record) -> io::Result<()> {
    let kind = ["D", "C", "R"][usize::from(job.kind)];
    let Record {
        turn,
        marker,
        job_no,
        end,
    } = record;
    write!(
        out,
        "{turn},{job_no},{marker},{kind},{},{},",
        job.line, job.digits
    )?;
    match end {
        End::DialTone(path) => writeln!(out, "DIALTONE,1,{path},-"),
        End::Connected(path) => writeln!(out, "CONNECTED,1,{path},-"),
        End::Released(path) => writeln!(out, "RELEASED,-,{path},-"),
        End::LineBusy => writeln!(out, "LINEBUSY,-,-,-"),
        End::Busy if job.kind == 0 => writeln!(out, "REGISTERSBUSY,-,-,-"),
        End::Busy => writeln!(out, "TRUNKSBUSY,-,-,-"),
        End::NoPath => writeln!(out, "NOPATH,-,-,-"),
        End::NoRegister => writeln!(out, "NOREGISTER,-,-,-"),
        End::NoCall => writeln!(out, "NOCALL,-,-,-"),
    }
}

/// Rows that assign jobs to 48 markers, and have them done whole.
fn replay(rows: &str) -> Option<Vec<u8>> {
    let plan = example();
    let words: Vec<Cell<u64>> = (0..453).map(|_| Cell::new(0)).collect();
    let mut markers: Vec<_> = (0..48).map(|k| (attempt(&words, k), None)).collect();
    let mut out = Vec::new();
    let mut paths = 0;
    for row in rows.lines() {
        let mut fields = row.split(',');
        let verb = fields.next()?;
        let marker: usize = fields.next()?.parse().ok()?;
        let (own, job) = markers.get_mut(marker)?;
        match verb {
            "J" => *job = Some(job_of(fields.next()?, fields.next()?, fields.next()?)?),
            "S" => {
                let _count: u32 = fields.next()?.parse().ok()?;
                let Some(asked) = job.take() else { continue };
                let record = own.do_job(&plan, asked.kind, asked.line, asked.job_no);
                paths += record.end.new_paths(asked.kind);
                write_record(&mut out, &asked, &record).ok()?;
            }
            _ => return None,
        }
    }
    writeln!(out, "PATHS,{paths}\nCLOSED,{}", 4 * paths).ok()?;
    Some(out)
}

/// Writes what comes of the rows on standard input.
fn answer(text_of: impl Fn(&str) -> Option<Vec<u8>>) -> io::Result<()> {
    let mut rows = String::new();
    io::stdin().read_to_string(&mut rows)?;
    match text_of(&rows) {
        Some(out) => io::stdout().write_all(&out),
        None => Err(io::ErrorKind::InvalidData.into()),
    }
}

fn main() {
    let words: Vec<String> = env::args().collect();
    let number = |at: usize, or: usize| words.get(at).and_then(|w| w.parse().ok()).unwrap_or(or);
    match words.get(1).map(String::as_str) {
        Some("lone") => lone(number(2, 10_000)),
        Some("whole") => whole(number(2, 100_000) as u32, number(3, 1) as u64),
        Some("live") => live(number(2, 10_000), number(3, 1) as u64, number(4, 3) as u64),
        Some("calls") => answer(|rows| text_of_calls(rows, number(2, 1) as u64)).unwrap(),
        Some("replay") => answer(replay).unwrap(),
        _ => println!("usage: plain_steps lone | whole | live | calls | replay, as its first lines say"),
    }
}
