//! A rehearsal tick by tick, as the document says it, with every call made as a box makes it. For short days: it is slow.

use crate::choice::Choice;
use crate::day::Day;
use crate::record::Record;
use std::collections::VecDeque;

/// A run that was accepted: its number among its task's, its core, deadline and length, and the ticks it has had.
struct Run {
    number: usize,
    core: u64,
    deadline: u64,
    length: u64,
    had: u64,
}

/// A core's run without a break: the task, the run's number, and the first tick.
#[derive(Clone, Copy)]
struct Span {
    task: u64,
    run: usize,
    from: u64,
}

struct Ticking {
    record: Record,
    /// The unfinished runs of each task, the oldest first, and how many were accepted.
    runs: Vec<VecDeque<Run>>,
    accepted: Vec<usize>,
    /// What each core was at in the tick before.
    spans: Vec<Option<Span>>,
    text: String,
}

/// The text of a day.
pub fn run(day: &Day) -> Vec<u8> {
    let mut ticking = Ticking {
        record: day.record.clone(),
        runs: (0..day.record.count).map(|_| VecDeque::new()).collect(),
        accepted: vec![0; day.record.count as usize],
        spans: vec![None; day.record.cores as usize],
        text: String::new(),
    };
    for tick in 0..day.stop {
        ticking.tick(day, tick);
    }
    let idle = vec![None; ticking.spans.len()];
    ticking.close_spans(&idle, day.stop);
    ticking.text += &format!("stop {}\n", day.stop);
    ticking.list_unfinished();
    ticking.text.into_bytes()
}

impl Ticking {
    /// Releases, looks, one tick of running, finishes.
    fn tick(&mut self, day: &Day, tick: u64) {
        for (index, arrival) in day.arrivals.iter().enumerate() {
            if arrival.time == tick {
                self.release(index + 1, arrival.task, arrival.length, tick);
            }
        }
        let cores = 1..=self.record.cores;
        let chosen: Vec<Option<u64>> = cores.map(|core| self.look(core, tick)).collect();
        self.close_spans(&chosen, tick);
        self.open_spans(&chosen, tick);
        for task in chosen.iter().flatten() {
            self.oldest(*task).had += 1;
        }
        for (index, task) in chosen.iter().enumerate() {
            if let Some(task) = *task {
                self.finish_if_done(index + 1, task, tick + 1);
            }
        }
    }

    fn oldest(&mut self, task: u64) -> &mut Run {
        let runs = &mut self.runs[task as usize - 1];
        runs.front_mut().expect("a chosen task has a run")
    }

    fn release(&mut self, number: usize, task: u64, length: u64, time: u64) {
        let index = task as usize - 1;
        match self.record.release(task, time) {
            Ok((core, deadline)) => {
                self.accepted[index] += 1;
                self.runs[index].push_back(Run {
                    number: self.accepted[index],
                    core,
                    deadline,
                    length,
                    had: 0,
                });
            }
            Err(no) => {
                self.text += &format!("refused {no} arrival {number} task {task} at {time}\n");
            }
        }
    }

    /// The task that a core chooses.
    fn look(&mut self, core: u64, time: u64) -> Option<u64> {
        match self.record.look(core, time).expect("no look is refused") {
            Choice::Idle => None,
            Choice::Fixed { task, .. } | Choice::Mover { task, .. } => Some(task),
        }
    }

    /// Writes each span that a core's new choice ends.
    fn close_spans(&mut self, chosen: &[Option<u64>], time: u64) {
        for (index, task) in chosen.iter().enumerate() {
            let Some(Span {
                task: was,
                run,
                from,
            }) = self.spans[index]
            else {
                continue;
            };
            let goes_on = *task == Some(was) && self.oldest(was).number == run;
            if !goes_on {
                let core = index + 1;
                self.text +=
                    &format!("span core {core} task {was} run {run} from {from} to {time}\n");
                self.spans[index] = None;
            }
        }
    }

    /// Begins a span on each core whose choice is new.
    fn open_spans(&mut self, chosen: &[Option<u64>], from: u64) {
        for (index, task) in chosen.iter().enumerate() {
            if let (None, Some(task)) = (self.spans[index], *task) {
                let run = self.oldest(task).number;
                self.spans[index] = Some(Span { task, run, from });
            }
        }
    }

    fn finish_if_done(&mut self, core: usize, task: u64, time: u64) {
        let &mut Run {
            number,
            length,
            had,
            ..
        } = self.oldest(task);
        if had == length {
            let late = self.record.finish(task, time);
            let late = late.expect("no finish is refused");
            self.text +=
                &format!("finish core {core} task {task} run {number} at {time} late {late}\n");
            self.runs[task as usize - 1].pop_front();
        }
    }

    fn list_unfinished(&mut self) {
        for (index, runs) in self.runs.iter().enumerate() {
            for run in runs {
                let (
                    task,
                    Run {
                        number,
                        core,
                        deadline,
                        had,
                        length,
                    },
                ) = (index + 1, run);
                self.text += &format!(
                    "unfinished task {task} run {number} core {core} deadline {deadline} "
                );
                self.text += &format!("had {had} of {length}\n");
            }
        }
    }
}
