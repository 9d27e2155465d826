// The report of a trace, by a plain Rust program that steps every tick over std's collections. It trusts its input: it is for
// comparing figures and times, and refuses nothing. Build with `rustc -O baseline.rs`; reads a trace, writes the report.
use std::cmp::Reverse;
use std::collections::{BinaryHeap, VecDeque};
use std::io::{self, Read, Write};

const QUANTUM: u32 = 2;

struct Job {
    name: String,
    arrival: u32,
    size: u32,
}

struct Trace {
    jobs: Vec<Job>,
    lost: Vec<u32>,
    last_tick: Option<u32>,
}

fn read(text: &str) -> Trace {
    let mut trace = Trace { jobs: Vec::new(), lost: Vec::new(), last_tick: None };
    for line in text.lines() {
        let fields: Vec<&str> = line.split(' ').collect();
        let tick = fields[1].parse().expect("a tick");
        match fields[0] {
            "job" => trace.jobs.push(Job { name: fields[3].to_string(), arrival: tick, size: fields[2].parse().expect("a size") }),
            _ => trace.lost.push(tick),
        }
        trace.last_tick = Some(tick);
    }
    trace
}

trait Discipline {
    fn admit(&mut self, job: usize, left: &[u32]);
    fn choice(&mut self, left: &[u32]) -> usize;
    // One unit was done on the choice; `left` is what remains of every job.
    fn worked(&mut self, job: usize, left: &[u32]);
}

#[derive(Default)]
struct Fcfs(VecDeque<usize>);

impl Discipline for Fcfs {
    fn admit(&mut self, job: usize, _: &[u32]) {
        self.0.push_back(job);
    }
    fn choice(&mut self, _: &[u32]) -> usize {
        self.0[0]
    }
    fn worked(&mut self, job: usize, left: &[u32]) {
        if left[job] == 0 {
            self.0.pop_front();
        }
    }
}

#[derive(Default)]
struct Lcfs(Vec<usize>);

impl Discipline for Lcfs {
    fn admit(&mut self, job: usize, _: &[u32]) {
        self.0.push(job);
    }
    fn choice(&mut self, _: &[u32]) -> usize {
        self.0[self.0.len() - 1]
    }
    fn worked(&mut self, job: usize, left: &[u32]) {
        if left[job] == 0 {
            self.0.pop();
        }
    }
}

#[derive(Default)]
struct RoundRobin {
    row: VecDeque<usize>,
    turn: u32,
}

impl Discipline for RoundRobin {
    fn admit(&mut self, job: usize, _: &[u32]) {
        self.row.push_back(job);
    }
    fn choice(&mut self, _: &[u32]) -> usize {
        self.row[0]
    }
    fn worked(&mut self, job: usize, left: &[u32]) {
        self.turn += 1;
        if left[job] == 0 {
            self.row.pop_front();
            self.turn = 0;
        } else if self.turn == QUANTUM {
            self.row.rotate_left(1);
            self.turn = 0;
        }
    }
}

// The key on top is always right: a unit changes the top key only, which is taken off and put back.
#[derive(Default)]
struct Srpt(BinaryHeap<Reverse<(u32, usize)>>);

impl Discipline for Srpt {
    fn admit(&mut self, job: usize, left: &[u32]) {
        self.0.push(Reverse((left[job], job)));
    }
    fn choice(&mut self, _: &[u32]) -> usize {
        self.0.peek().expect("somebody is present").0.1
    }
    fn worked(&mut self, job: usize, left: &[u32]) {
        self.0.pop();
        if left[job] > 0 {
            self.0.push(Reverse((left[job], job)));
        }
    }
}

struct Figures {
    end: u32,
    total: u64,
    most: u32,
    sojourns: Vec<u32>,
}

fn simulate(trace: &Trace, mut discipline: impl Discipline) -> Figures {
    let mut left: Vec<u32> = trace.jobs.iter().map(|job| job.size).collect();
    let mut figures = Figures { end: 0, total: 0, most: 0, sojourns: vec![0; left.len()] };
    let (mut entered, mut lost, mut present, mut clock) = (0, 0, 0u32, 0u32);
    loop {
        while entered < trace.jobs.len() && trace.jobs[entered].arrival == clock {
            discipline.admit(entered, &left);
            entered += 1;
            present += 1;
        }
        let is_lost = lost < trace.lost.len() && trace.lost[lost] == clock;
        if is_lost {
            lost += 1;
        }
        if present == 0 && trace.last_tick.is_none_or(|last| last <= clock) {
            figures.end = clock;
            return figures;
        }
        figures.total += u64::from(present);
        figures.most = figures.most.max(present);
        if present > 0 && !is_lost {
            let job = discipline.choice(&left);
            left[job] -= 1;
            if left[job] == 0 {
                present -= 1;
                figures.sojourns[job] = clock + 1 - trace.jobs[job].arrival;
            }
            discipline.worked(job, &left);
        }
        clock += 1;
    }
}

fn main() -> io::Result<()> {
    let mut text = String::new();
    io::stdin().read_to_string(&mut text)?;
    let trace = read(&text);
    let all = [
        ("fcfs", simulate(&trace, Fcfs::default())),
        ("lcfs", simulate(&trace, Lcfs::default())),
        ("rr", simulate(&trace, RoundRobin::default())),
        ("srpt", simulate(&trace, Srpt::default())),
    ];
    let mut out = io::BufWriter::new(io::stdout().lock());
    writeln!(out, "jobs {} end {}", trace.jobs.len(), all[0].1.end)?;
    for (name, figures) in &all {
        let longest = figures.sojourns.iter().max().copied().unwrap_or(0);
        writeln!(out, "{name} total {} most {} longest {longest}", figures.total, figures.most)?;
    }
    let mut order: Vec<usize> = (0..trace.jobs.len()).collect();
    order.sort_by_key(|&job| (trace.jobs[job].name.as_bytes(), job));
    for job in order {
        let Job { name, arrival, size } = &trace.jobs[job];
        write!(out, "{name} {arrival} {size}")?;
        for (_, figures) in &all {
            write!(out, " {}", figures.sojourns[job])?;
        }
        writeln!(out)?;
    }
    Ok(())
}
