// A plain single-threaded program to compare with: it reads a log from standard input, simulates it by EASY backfilling in
// order of arrival, and writes the schedule. `plain --procs N`; with `--time` it prints on standard error what each part took.
//
//   rustc -O -C target-cpu=native plain.rs
//
// It tests less than easybook does: a log without fractions, with no job number twice, whose jobs stand in order.
use std::cmp::Reverse;
use std::collections::BinaryHeap;
use std::io::{Read, Write};
use std::time::Instant;

#[derive(Clone, Copy)]
struct Job {
    number: u64,
    submit: u64,
    size: u64,
    estimate: u64,
    length: u64,
    is_killed: bool,
}

/// The whole numbers of a line.
fn fields(line: &[u8]) -> Option<[i64; 18]> {
    let mut fields = [0; 18];
    let mut count = 0;
    let mut at = 0;
    while at < line.len() {
        if line[at] == b' ' || line[at] == b'\t' || line[at] == b'\r' {
            at += 1;
            continue;
        }
        let is_negative = line[at] == b'-';
        at += usize::from(is_negative);
        let begin = at;
        let mut value = 0i64;
        while at < line.len() && line[at].is_ascii_digit() {
            value = value * 10 + i64::from(line[at] - b'0');
            at += 1;
        }
        if at == begin || at - begin > 12 || count == 18 {
            return None;
        }
        fields[count] = if is_negative { -value } else { value };
        count += 1;
    }
    (count == 18).then_some(fields)
}

/// The job of a line's numbers on a machine of so many processors; none if it is skipped.
fn job(fields: &[i64; 18], procs: u64) -> Option<Job> {
    let size = if fields[7] > 0 { fields[7] } else { fields[4] };
    let run = fields[3];
    let asked = if fields[8] > 0 { fields[8] } else { run };
    if size <= 0 || run < 0 || size as u64 > procs || asked > 100_000_000 {
        return None;
    }
    let estimate = asked.max(1);
    Some(Job {
        number: fields[0] as u64,
        submit: fields[1] as u64,
        size: size as u64,
        estimate: estimate as u64,
        length: run.min(estimate).max(1) as u64,
        is_killed: estimate < run,
    })
}

fn read(log: &[u8], procs: u64) -> Vec<Job> {
    let mut jobs = Vec::with_capacity(log.len() / 64);
    for (place, line) in log.split(|&byte| byte == b'\n').enumerate() {
        let front = line.iter().position(|byte| !byte.is_ascii_whitespace());
        if front.is_none() || front.is_some_and(|at| line[at] == b';') {
            continue;
        }
        let Some(fields) = fields(line) else {
            eprintln!("plain: line {}", place + 1);
            std::process::exit(1)
        };
        if !matches!(fields[10], 2..=4) {
            jobs.extend(job(&fields, procs));
        }
    }
    jobs
}

/// A running job by the second at which it has ended if it runs until its estimate.
#[derive(Clone, Copy, PartialEq, Eq, PartialOrd, Ord)]
struct Holder {
    until: u64,
    place: usize,
}

struct Machine<'a> {
    jobs: &'a [Job],
    free: u64,
    starts: Vec<u64>,
    ends: BinaryHeap<Reverse<(u64, usize)>>,
    /// The running jobs; the first to end by its estimate is the last of these.
    holders: Vec<Holder>,
}

impl Machine<'_> {
    fn start(&mut self, place: usize, now: u64) {
        let job = &self.jobs[place];
        self.free -= job.size;
        self.starts[place] = now;
        self.ends.push(Reverse((now + job.length, place)));
        let holder = Holder { until: now + job.estimate, place };
        let at = self.holders.partition_point(|other| *other > holder);
        self.holders.insert(at, holder);
    }

    /// Ends the jobs of this second: whether there was one.
    fn finish(&mut self, now: u64) -> bool {
        let mut is_freed = false;
        while let Some(&Reverse((end, place))) = self.ends.peek() {
            if end > now {
                break;
            }
            self.ends.pop();
            self.free += self.jobs[place].size;
            let holder = Holder { until: self.starts[place] + self.jobs[place].estimate, place };
            let at = self.holders.partition_point(|other| *other > holder);
            self.holders.remove(at);
            is_freed = true;
        }
        is_freed
    }

    /// The first second at which so many processors are free, and how many are left then.
    fn shadow(&self, size: u64) -> (u64, u64) {
        let mut free = self.free;
        let mut at = self.holders.len();
        loop {
            let until = self.holders[at - 1].until;
            while at > 0 && self.holders[at - 1].until == until {
                at -= 1;
                free += self.jobs[self.holders[at].place].size;
            }
            if free >= size {
                return (until, free - size);
            }
        }
    }
}

/// Starts what may start now. If no job has ended, only those that stand behind `settled` may.
fn decide(machine: &mut Machine, queue: &mut Vec<usize>, known: &mut Option<(u64, u64)>, settled: usize, now: u64) {
    let jobs = machine.jobs;
    let mut begin = settled.max(1);
    if known.is_none() {
        let fits = queue.iter().take_while(|&&place| {
            let is_fit = jobs[place].size <= machine.free;
            if is_fit {
                machine.start(place, now);
            }
            is_fit
        });
        let started = fits.count();
        queue.drain(..started);
        begin = 1;
    }
    if queue.len() <= begin || machine.free == 0 {
        return;
    }
    let (time, mut extra) = known.unwrap_or_else(|| machine.shadow(jobs[queue[0]].size));
    let mut kept = begin;
    for at in begin..queue.len() {
        let place = queue[at];
        let job = &jobs[place];
        let is_short = now + job.estimate <= time;
        if job.size <= machine.free && (is_short || job.size <= extra) {
            extra -= if is_short { 0 } else { job.size };
            machine.start(place, now);
        } else {
            queue[kept] = place;
            kept += 1;
        }
    }
    queue.truncate(kept);
    *known = Some((time, extra));
}

fn simulate(jobs: &[Job], procs: u64) -> Vec<u64> {
    let (ends, holders) = (BinaryHeap::new(), Vec::new());
    let mut machine = Machine { jobs, free: procs, starts: vec![0; jobs.len()], ends, holders };
    let mut queue = Vec::new();
    let mut known = None;
    let mut next = 0;
    loop {
        let submit = jobs.get(next).map(|job| job.submit);
        let end = machine.ends.peek().map(|end| end.0.0);
        let Some(now) = submit.into_iter().chain(end).min() else {
            return machine.starts;
        };
        let settled = queue.len();
        if machine.finish(now) || settled == 0 {
            known = None;
        }
        while jobs.get(next).is_some_and(|job| job.submit == now) {
            queue.push(next);
            next += 1;
        }
        decide(&mut machine, &mut queue, &mut known, settled, now);
    }
}

fn push(text: &mut Vec<u8>, number: u64, width: usize) {
    let mut digits = [b' '; 20];
    let mut at = 20;
    let mut left = number;
    loop {
        at -= 1;
        digits[at] = b'0' + (left % 10) as u8;
        left /= 10;
        if left == 0 {
            break;
        }
    }
    text.extend_from_slice(&digits[at.min(20 - width)..]);
}

fn schedule(jobs: &[Job], starts: &[u64]) -> Vec<u8> {
    let mut text = Vec::with_capacity(jobs.len() * 56 + 56);
    text.extend_from_slice(format!("schedule base version 0 jobs {}\n", jobs.len()).as_bytes());
    for (job, &start) in jobs.iter().zip(starts) {
        push(&mut text, job.number, 8);
        for (number, width) in [(job.submit, 10), (start, 10), (start + job.length, 10), (job.size, 8)] {
            text.push(b' ');
            push(&mut text, number, width);
        }
        text.extend_from_slice(if job.is_killed { b" kill\n" } else { b" ok\n" });
    }
    text
}

fn main() -> std::io::Result<()> {
    let words: Vec<String> = std::env::args().collect();
    let procs = words.iter().position(|word| word == "--procs").map_or("", |at| words[at + 1].as_str());
    let procs: u64 = procs.parse().expect("--procs N");
    let begun = Instant::now();
    let mut log = Vec::new();
    std::io::stdin().read_to_end(&mut log)?;
    let had = begun.elapsed();
    let jobs = read(&log, procs);
    let was_read = begun.elapsed();
    let starts = simulate(&jobs, procs);
    let simulated = begun.elapsed();
    let text = schedule(&jobs, &starts);
    std::io::stdout().write_all(&text)?;
    if words.iter().any(|word| word == "--time") {
        let (parse, run, print) = (was_read - had, simulated - was_read, begun.elapsed() - simulated);
        eprintln!("file {had:.3?} read {parse:.3?} simulate {run:.3?} print {print:.3?}");
    }
    Ok(())
}
