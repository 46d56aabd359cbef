//! Which of the runs on a core is the most urgent.

use crate::record::Record;
use crate::task::Task;

/// What a core should do now.
#[derive(Clone, Copy, Debug, PartialEq, Eq)]
pub enum Choice {
    Idle,
    Fixed {
        task: u64,
        deadline: u64,
    },
    Mover {
        task: u64,
        deadline: u64,
        upper: bool,
    },
}

/// The classes of runs on a core, most urgent first.
#[derive(Clone, Copy, PartialEq, Eq, PartialOrd, Ord)]
pub(crate) enum Class {
    Upper,
    Lower,
    Fixed,
}

/// The most urgent oldest run that a core of a sound record may choose at its clock: class, then deadline, then task number.
pub(crate) fn choice(record: &Record, core: u64) -> Choice {
    let mut best = None;
    for index in 0..record.count as usize {
        let (task, oldest) = (&record.tasks[index], record.states[index].runs[0]);
        // A task with no run has core 0 here, so it matches none.
        if oldest.core == core && !oldest.held(task, record.clock) {
            let class = class(task, core);
            let key = (class, oldest.deadline, index as u64 + 1);
            best = Some(best.map_or(key, |best| key.min(best)));
        }
    }
    match best {
        None => Choice::Idle,
        Some((Class::Fixed, deadline, task)) => Choice::Fixed { task, deadline },
        Some((class, deadline, task)) => Choice::Mover {
            task,
            deadline,
            upper: class == Class::Upper,
        },
    }
}

/// How a task stands on a core where it has a share.
fn class(task: &Task, core: u64) -> Class {
    if !task.moves() {
        Class::Fixed
    } else if task.first_core() == Some(core as usize - 1) {
        Class::Lower
    } else {
        Class::Upper
    }
}
