//! Early runs: taken, held until a period after the last release, and then like any other.
#![forbid(unsafe_code)]

use second::choice::Choice;
use second::limits::CLOCK;
use second::player::calls;
use second::record::{Record, Run};

/// Three tasks of 2 3 on two cores: the third moves.
fn three() -> Record {
    Record::fresh(2, &[2, 3, 2, 3, 2, 3]).unwrap()
}

/// One task of 1 10 on one core.
fn one() -> Record {
    Record::fresh(1, &[1, 10]).unwrap()
}

/// What a core chooses where it chooses the one task.
fn fixed(deadline: u64) -> Result<Choice, u32> {
    Ok(Choice::Fixed { task: 1, deadline })
}

#[test]
fn an_early_run_is_held() {
    let mut record = three();
    assert_eq!(record.release(3, 0), Ok((1, 3)));
    assert_eq!(record.release(3, 2), Ok((2, 6)));
    assert_eq!((record.clock, record.states[2].last), (2, 3));
    assert_eq!(record.finish(3, 2), Ok(-1));
    assert_eq!(record.finish(3, 2), Err(11));
    assert_eq!(record.look(2, 2), Ok(Choice::Idle));
    let upper = Choice::Mover {
        task: 3,
        deadline: 6,
        upper: true,
    };
    assert_eq!(record.look(2, 3), Ok(upper));
}

#[test]
fn the_player_holds_it_too() {
    let input = b"2\n2 3\n2 3\n2 3\ncalls\nrelease 3 0\nrelease 3 2\nfinish 3 2\nfinish 3 2\nlook 2 2\nlook 2 3\n";
    let answer =
        "core 1 deadline 3\ncore 2 deadline 6\nlate -1\nrefused 11\nidle\nupper 3 deadline 6\n";
    assert_eq!(String::from_utf8(calls(input)).unwrap(), answer);
}

/// A period after the last release, or later, nothing is held.
#[test]
fn a_run_on_time_is_not_held() {
    for time in [10, 11, 25] {
        let mut record = one();
        record.release(1, 0).unwrap();
        record.finish(1, 0).unwrap();
        assert_eq!(record.release(1, time), Ok((1, time + 10)));
        assert_eq!(record.states[0].last, time);
        assert_eq!(record.look(1, time), fixed(time + 10));
        assert_eq!(record.finish(1, time), Ok(-10));
    }
}

/// A first release is never early, whatever its time.
#[test]
fn a_first_run_is_not_held() {
    for time in [0, 3, CLOCK] {
        let mut record = one();
        assert_eq!(record.release(1, time), Ok((1, time + 10)));
        assert_eq!(record.look(1, time), fixed(time + 10));
    }
}

/// The times of several early calls do not count: each run is released a period after the one before.
#[test]
fn early_runs_in_a_row() {
    let mut record = one();
    record.release(1, 5).unwrap();
    for (time, deadline) in [(5, 25), (5, 35), (14, 45), (14, 55), (30, 65)] {
        assert_eq!(record.release(1, time), Ok((1, deadline)));
        assert_eq!(record.clock, time);
    }
    assert_eq!(record.states[0].last, 55);
    assert_eq!(record.release(1, 65), Ok((1, 75)));
    assert_eq!(record.release(1, 80), Ok((1, 90)));
    assert_eq!(record.states[0].last, 80);
}

/// Held runs count among the eight, and a finish gives one place back.
#[test]
fn the_eighth_and_the_ninth() {
    let mut record = one();
    for run in 1..=8 {
        assert_eq!(record.release(1, 0), Ok((1, 10 * run)));
    }
    let full = record.clone();
    assert_eq!(record.release(1, 0), Err(10));
    assert_eq!(record.release(1, 79), Err(10));
    assert_eq!(record.release(1, 80), Err(10));
    assert_eq!(record, full);
    assert_eq!(record.finish(1, 0), Ok(-10));
    assert_eq!(record.finish(1, 0), Err(11));
    assert_eq!(record.release(1, 0), Ok((1, 90)));
}

#[test]
fn a_finish_around_the_held_instant() {
    let mut record = one();
    record.release(1, 0).unwrap();
    record.release(1, 4).unwrap();
    record.release(1, 4).unwrap();
    assert_eq!(record.finish(1, 4), Ok(-6));
    let before = record.clone();
    assert_eq!(record.finish(1, 9), Err(11));
    assert_eq!(record, before);
    assert_eq!(record.look(1, 9), Ok(Choice::Idle));
    assert_eq!(record.finish(1, 9), Err(11));
    assert_eq!(record.finish(1, 10), Ok(-10));
    // The run behind it is held in its turn.
    assert_eq!(record.finish(1, 10), Err(11));
    assert_eq!(record.finish(1, 19), Err(11));
    assert_eq!(record.finish(1, 21), Ok(-9));
    assert_eq!(record.finish(1, 21), Err(11));
}

/// Only the oldest run counts: what stands behind a held one waits, though its own release time is past.
#[test]
fn a_run_behind_a_held_one() {
    let mut record = one();
    record.release(1, 0).unwrap();
    record.release(1, 0).unwrap();
    let state = &mut record.states[0];
    (state.runs[0].deadline, state.runs[1].deadline) = (20, 10);
    assert_eq!(record.look(1, 9), Ok(Choice::Idle));
    assert_eq!(record.finish(1, 9), Err(11));
    assert_eq!(record.look(1, 10), fixed(20));
    assert_eq!(record.finish(1, 10), Ok(-10));
    assert_eq!(record.finish(1, 10), Ok(0));
}

/// A held mover leaves its core to a fixed task until it is released.
#[test]
fn others_run_meanwhile() {
    let mut record = three();
    record.release(1, 0).unwrap();
    record.release(2, 0).unwrap();
    record.release(3, 0).unwrap();
    record.finish(3, 1).unwrap();
    assert_eq!(record.release(3, 1), Ok((2, 6)));
    let other = Choice::Fixed {
        task: 2,
        deadline: 3,
    };
    assert_eq!(record.look(2, 2), Ok(other));
    assert_ne!(record.look(2, 3), Ok(other));
}

/// 12 is also for the held release time, though the call's own time is within the clock.
#[test]
fn early_at_the_clock_s_limit() {
    let mut record = one();
    record.release(1, CLOCK - 10).unwrap();
    assert_eq!(record.release(1, CLOCK - 10), Ok((1, CLOCK + 10)));
    assert_eq!(record.states[0].last, CLOCK);
    let before = record.clone();
    for time in [CLOCK - 10, CLOCK - 1, CLOCK, CLOCK + 1] {
        assert_eq!(record.release(1, time), Err(12));
    }
    assert_eq!(record.release(1, CLOCK - 11), Err(8));
    assert_eq!(record, before);
    assert_eq!(record.finish(1, CLOCK - 10), Ok(-10));
    assert_eq!(record.finish(1, CLOCK - 1), Err(11));
    assert_eq!(record.look(1, CLOCK), fixed(CLOCK + 10));
    assert_eq!(record.finish(1, CLOCK), Ok(-10));
}

#[test]
fn one_tick_on_each_side_of_the_limit() {
    for (last, answer) in [(CLOCK - 10, Ok((1, CLOCK + 10))), (CLOCK - 9, Err(12))] {
        let mut record = one();
        record.release(1, last).unwrap();
        assert_eq!(record.release(1, last), answer);
    }
}

/// The order of the tests: 7, 12, 8, 12 for the held release time, 10.
#[test]
fn twelve_before_ten() {
    let mut record = one();
    for _ in 0..8 {
        record.release(1, CLOCK - 70).unwrap();
    }
    assert_eq!(record.states[0].last, CLOCK);
    assert_eq!(record.release(1, CLOCK - 70), Err(12));
    assert_eq!(record.release(1, CLOCK), Err(12));
    assert_eq!(record.release(1, CLOCK - 71), Err(8));
    assert_eq!(record.release(2, CLOCK - 71), Err(7));
    record.states[0].last = CLOCK - 10;
    assert_eq!(record.release(1, CLOCK - 70), Err(10));
    record.states[0].had = 2;
    assert_eq!(record.release(2, CLOCK + 1), Err(15));
}

/// No call needs a last release that is past: what comes next is a period after it.
#[test]
fn a_last_release_above_the_clock() {
    let mut record = one();
    record.states[0].had = 1;
    record.states[0].last = 500;
    assert_eq!(record.release(1, 7), Ok((1, 520)));
    assert_eq!((record.clock, record.states[0].last), (7, 510));
    assert_eq!(record.look(1, 509), Ok(Choice::Idle));
    assert_eq!(record.look(1, 510), fixed(520));
    record.states[0].last = CLOCK;
    assert!(record.sound());
    assert_eq!(record.release(1, 510), Err(12));
    // Without its flag the number has no meaning, and must be 0.
    record.states[0].had = 0;
    assert_eq!(record.release(1, 510), Err(15));
}

/// A deadline below the period is never held, at time 0 neither.
#[test]
fn a_deadline_below_the_period() {
    for deadline in [0, 1, 9, 10] {
        let mut record = one();
        record.states[0].unfinished = 1;
        record.states[0].runs[0] = Run { core: 1, deadline };
        assert_eq!(record.look(1, 0), fixed(deadline));
        assert_eq!(record.finish(1, 0), Ok(-(deadline as i64)));
    }
    let mut record = one();
    record.states[0].unfinished = 1;
    record.states[0].runs[0] = Run {
        core: 1,
        deadline: 11,
    };
    assert_eq!(record.look(1, 0), Ok(Choice::Idle));
    assert_eq!(record.finish(1, 0), Err(11));
    assert_eq!(record.look(1, 1), fixed(11));
}

/// The turn is taken when the release is accepted, and by nothing else.
#[test]
fn turns_of_early_runs() {
    let mut record = three();
    let cores: Vec<u64> = (0..6).map(|_| record.release(3, 0).unwrap().0).collect();
    assert_eq!(cores, [1, 2, 1, 2, 1, 2]);
    record.release(3, 0).unwrap();
    record.release(3, 0).unwrap();
    assert_eq!(record.release(3, 0), Err(10));
    record.finish(3, 0).unwrap();
    assert_eq!(record.release(3, 1).unwrap().0, 1);
}
