//! What `rehearse` would write with a fault in the product: tick by tick, where the day is short.

use second::choice::Choice;
use second::day::{read_day, Day};
use second::record::Record;

/// Longer days are answered right.
const SHORT: u64 = 400;
const FAULTS: [&str; 5] = [
    "late_finish",
    "arrivals_after_looks",
    "falling_finishes",
    "jumped_held",
    "joined_spans",
];

/// A run that was accepted and is not finished.
struct Run {
    number: usize,
    core: u64,
    deadline: u64,
    length: u64,
    had: u64,
}

struct Slip<'a> {
    fault: &'a str,
    record: Record,
    runs: Vec<Vec<Run>>,
    accepted: Vec<usize>,
    /// What each core is at: a task and a run, and since when.
    spans: Vec<Option<(usize, usize, u64)>>,
    chosen: Vec<Option<usize>>,
    text: String,
}

pub fn answer(input: &[u8], fault: &str) -> Vec<u8> {
    match read_day(input) {
        Ok(day) if day.stop <= SHORT && FAULTS.contains(&fault) => slip(&day, fault),
        _ => second::rehearse::rehearse(input),
    }
}

fn slip(day: &Day, fault: &str) -> Vec<u8> {
    let (tasks, cores) = (day.record.count as usize, day.record.cores as usize);
    let mut slip = Slip {
        fault,
        record: day.record.clone(),
        runs: (0..tasks).map(|_| Vec::new()).collect(),
        accepted: vec![0; tasks],
        spans: vec![None; cores],
        chosen: vec![None; cores],
        text: String::new(),
    };
    let mut touched = true;
    for tick in 0..day.stop {
        touched = slip.tick(day, tick, touched);
    }
    slip.chosen.fill(None);
    slip.turn_spans(day.stop);
    slip.text += &format!("stop {}\n", day.stop);
    slip.list_unfinished();
    slip.text.into_bytes()
}

impl Slip<'_> {
    /// One tick, after one with a finish or not; answers whether it has one.
    fn tick(&mut self, day: &Day, tick: u64, mut touched: bool) -> bool {
        if self.fault == "arrivals_after_looks" {
            self.look(tick);
            self.release(day, tick);
        } else {
            touched |= self.release(day, tick);
            // A jump past the instant of a held run leaves the choices as they are.
            if touched || self.fault != "jumped_held" {
                self.look(tick);
            }
        }
        self.turn_spans(tick);
        for task in self.chosen.iter().flatten() {
            self.runs[*task][0].had += 1;
        }
        self.finish(tick + 1)
    }

    fn release(&mut self, day: &Day, tick: u64) -> bool {
        let mut came = false;
        let arrivals = day.arrivals.iter().enumerate();
        for (place, arrival) in arrivals.filter(|(_, arrival)| arrival.time == tick) {
            let (task, number) = (arrival.task as usize - 1, place + 1);
            came = true;
            match self.record.release(arrival.task, tick) {
                Ok((core, deadline)) => {
                    self.accepted[task] += 1;
                    self.runs[task].push(Run {
                        number: self.accepted[task],
                        core,
                        deadline,
                        length: arrival.length,
                        had: 0,
                    });
                }
                Err(no) => {
                    let task = arrival.task;
                    self.text += &format!("refused {no} arrival {number} task {task} at {tick}\n");
                }
            }
        }
        came
    }

    fn look(&mut self, tick: u64) {
        for (index, chosen) in self.chosen.iter_mut().enumerate() {
            *chosen = match self.record.look(index as u64 + 1, tick) {
                Ok(Choice::Fixed { task, .. } | Choice::Mover { task, .. }) => {
                    Some(task as usize - 1)
                }
                _ => None,
            };
        }
    }

    fn turn_spans(&mut self, tick: u64) {
        for (index, chosen) in self.chosen.iter().enumerate() {
            let run = chosen.map(|task| (task, self.runs[task][0].number));
            let span = self.spans[index];
            let was = span.map(|(task, run, _)| (task, run));
            let joined = self.fault == "joined_spans" && *chosen == span.map(|span| span.0);
            if run == was || joined {
                continue;
            }
            if let Some((task, run, from)) = span {
                let (core, task) = (index + 1, task + 1);
                self.text +=
                    &format!("span core {core} task {task} run {run} from {from} to {tick}\n");
            }
            self.spans[index] = run.map(|(task, run)| (task, run, tick));
        }
    }

    fn finish(&mut self, time: u64) -> bool {
        let mut cores: Vec<usize> = (0..self.chosen.len()).collect();
        if self.fault == "falling_finishes" {
            cores.reverse();
        }
        let more = u64::from(self.fault == "late_finish");
        let mut finished = false;
        for core in cores {
            let Some(index) = self.chosen[core] else {
                continue;
            };
            if self.runs[index][0].had < self.runs[index][0].length + more {
                continue;
            }
            let (run, task) = (self.runs[index].remove(0).number, index + 1);
            let late = self.record.finish(task as u64, time).unwrap_or(0);
            let core = core + 1;
            self.text +=
                &format!("finish core {core} task {task} run {run} at {time} late {late}\n");
            self.chosen[core - 1] = None;
            finished = true;
        }
        finished
    }

    fn list_unfinished(&mut self) {
        for (index, runs) in self.runs.iter().enumerate() {
            for run in runs {
                let Run {
                    number,
                    core,
                    deadline,
                    length,
                    had,
                } = run;
                let task = index + 1;
                self.text += &format!("unfinished task {task} run {number} core {core} ");
                self.text += &format!("deadline {deadline} had {had} of {length}\n");
            }
        }
    }
}
