//! A small box: it plans a list, plays a script of arrivals tick by tick, and prints what the calls answer.
mod yagomila;

use yagomila::{Choice, Dispatcher};

const CORES: usize = 2;
const TASKS: [(u32, u32); 3] = [(2, 3), (2, 3), (2, 3)];
/// The script: when a run arrives, and of which task. Task 3 comes a tick early at 2, and there is no task 4.
const ARRIVALS: [(u64, usize); 11] = [
    (0, 1),
    (0, 2),
    (0, 3),
    (2, 3),
    (3, 1),
    (3, 2),
    (6, 3),
    (8, 2),
    (9, 4),
    (9, 3),
    (12, 1),
];
/// The box is played for so many ticks.
const TICKS: u64 = 13;

/// The dispatcher, what each core runs, and the ticks that each task's oldest run has had.
struct SmallBox {
    dispatcher: Dispatcher,
    running: [Choice; CORES],
    ticks_had: [u32; TASKS.len()],
}

impl SmallBox {
    fn release(&mut self, task: usize, now: u64) {
        match self.dispatcher.release(task, now) {
            Ok((core, deadline)) => {
                println!("at {now} release {task}: core {core} deadline {deadline}")
            }
            Err(refusal) => println!("at {now} release {task}: refused {refusal}"),
        }
    }

    fn finish(&mut self, task: usize, now: u64) {
        match self.dispatcher.finish(task, now) {
            Ok(late) => println!("at {now} finish {task}: late {late}"),
            Err(refusal) => println!("at {now} finish {task}: refused {refusal}"),
        }
    }

    /// A core is told what to run; a line where that is something else than before.
    fn look(&mut self, core: usize, now: u64) {
        let choice = self.dispatcher.look(core, now).expect("a core of the box");
        if choice == self.running[core - 1] {
            return;
        }
        self.running[core - 1] = choice;
        println!("at {now} look {core}: {choice}");
    }

    /// Each core runs its choice for a tick; a run that has had its length ends at the next tick.
    fn run_tick(&mut self, now: u64) {
        for core in 0..CORES {
            let Some(task) = self.running[core].task() else {
                continue;
            };
            self.ticks_had[task - 1] += 1;
            if self.ticks_had[task - 1] == TASKS[task - 1].0 {
                self.ticks_had[task - 1] = 0;
                self.finish(task, now + 1);
            }
        }
    }

    fn play(&mut self) {
        for now in 0..TICKS {
            for (_, task) in ARRIVALS.iter().filter(|(time, _)| *time == now) {
                self.release(*task, now);
            }
            for core in 1..=CORES {
                self.look(core, now);
            }
            self.run_tick(now);
        }
    }
}

fn main() {
    assert_eq!(yagomila::admit(2, &TASKS), Ok(()));
    assert_eq!(yagomila::listing(1, &TASKS), Err(6));
    assert_eq!(Dispatcher::start(2, &[]).err(), Some(2));
    let dispatcher = Dispatcher::start(2, &TASKS).expect("a list that is taken");
    assert_eq!(dispatcher.listing(), yagomila::listing(2, &TASKS));
    print!("{}", dispatcher.listing().expect("a sound record"));

    let mut small = SmallBox {
        dispatcher,
        running: [Choice::Idle; CORES],
        ticks_had: [0; TASKS.len()],
    };
    small.play();
    // two readings at once, and a job that says once too often that it is done: its second run is held until 16
    small.release(2, TICKS);
    small.release(2, TICKS);
    small.finish(2, TICKS);
    let before = small.dispatcher.clone();
    small.finish(2, TICKS);
    assert!(small.dispatcher == before);
}
