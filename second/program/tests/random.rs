//! Random tables: what the assignment, the turns and the bounds promise.
#![forbid(unsafe_code)]

mod common;

use common::{table, Random};
use second::choice::Choice;
use second::limits::CORES;
use second::plan::{late, plan, Plan};
use second::record::Record;
use second::task::Task;
use second::turn;

/// Sums, loads and movers of a plan.
fn check_shares(plan: &Plan) {
    for task in &plan.tasks {
        assert_eq!(task.shares.iter().sum::<u64>(), task.weight);
        assert_eq!(task.weight * task.period, task.cost * plan.common);
    }
    for core in 0..CORES {
        let here: Vec<&Task> = plan.tasks.iter().filter(|t| t.shares[core] > 0).collect();
        let load: u64 = here.iter().map(|task| task.shares[core]).sum();
        assert!(load <= plan.common);
        assert!(load == 0 || core < plan.cores as usize);
        let movers: Vec<&&Task> = here.iter().filter(|task| task.moves()).collect();
        let firsts = movers.iter().filter(|m| m.first_core() == Some(core));
        assert!(movers.len() < 2 || (movers.len() == 2 && firsts.count() == 1));
        for mover in &movers {
            let mut fixed = here.iter().filter(|task| !task.moves());
            assert!(fixed.any(|task| task.weight >= mover.weight));
            assert!(2 * mover.shares[core] <= plan.common);
        }
        let moved: u64 = movers.iter().map(|task| task.shares[core]).sum();
        assert!(3 * moved <= 2 * plan.common);
    }
}

/// Every core's count stays within one run of its part, and a whole cycle gives it its share.
fn check_turns(task: &Task) {
    let (mut counts, mut place) = ([0; CORES], 0);
    let mut had = [0; CORES];
    for number in 1..=task.weight {
        had[turn::step(task, &mut counts, &mut place)] += 1;
        for (core, &count) in had.iter().enumerate() {
            let part = number * task.shares[core];
            assert!(part / task.weight <= count);
            assert!(count <= part.div_ceil(task.weight));
        }
    }
    assert_eq!(had, task.shares);
    assert_eq!((counts, place), ([0; CORES], 0));
}

#[test]
fn plans_and_turns() {
    let mut random = Random(1);
    let mut movers = 0;
    for round in 0..3000 {
        let most = [12, 400, 5_000][round % 3];
        let (cores, table) = table(&mut random, most);
        let plan = plan(cores, &table).unwrap();
        check_shares(&plan);
        assert!(Record::of(&plan).sound());
        for bound in late(&plan) {
            assert!((-1_000_000..=1_000_000_000).contains(&bound));
        }
        for task in plan.tasks.iter().filter(|task| task.moves()) {
            check_turns(task);
            movers += 1;
        }
    }
    assert!(movers > 3000, "only {movers} movers");
}

/// A box played tick by tick, each core running its choice.
struct Play {
    record: Record,
    left: Vec<u64>,
    bounds: Vec<i64>,
    most: Vec<i64>,
}

impl Play {
    fn new(cores: u32, table: &[u32]) -> Self {
        let plan = plan(cores, table).unwrap();
        Play {
            record: Record::of(&plan),
            left: plan.tasks.iter().map(|task| task.cost).collect(),
            bounds: late(&plan),
            most: vec![i64::MIN; plan.tasks.len()],
        }
    }

    /// Releases some tasks, early ones too, lets each core run a tick, ends what is done by then.
    fn tick(&mut self, random: &mut Random, time: u64, eager: u64) {
        for task in 1..=self.left.len() as u64 {
            if random.below(10) < eager {
                let _ = self.record.release(task, time);
            }
        }
        let mut done = Vec::new();
        for core in 1..=self.record.cores {
            let task = match self.record.look(core, time).unwrap() {
                Choice::Idle => continue,
                Choice::Fixed { task, .. } | Choice::Mover { task, .. } => task as usize - 1,
            };
            self.left[task] -= 1;
            if self.left[task] == 0 {
                done.push(task);
            }
        }
        for task in done {
            let lateness = self.record.finish(task as u64 + 1, time + 1).unwrap();
            self.left[task] = self.record.tasks[task].cost;
            self.most[task] = self.most[task].max(lateness);
            assert!(lateness <= self.bounds[task]);
        }
    }
}

#[test]
fn no_run_is_later_than_its_bound() {
    let mut random = Random(2);
    let mut late = 0;
    for round in 0..60 {
        let (cores, table) = table(&mut random, 40);
        let mut play = Play::new(cores, &table);
        let eager = [10, 3, 1][round % 3];
        for time in 0..400 {
            play.tick(&mut random, time, eager);
        }
        late += play.most.iter().filter(|&&most| most > 0).count();
    }
    assert!(late > 50, "only {late} tasks were ever late");
}
