//! One call on a record.

use second::choice::Choice;
use second::record::Record;

#[derive(Clone, Copy, PartialEq, Eq)]
pub enum Name {
    Release,
    Finish,
    Look,
}

pub const NAMES: [Name; 3] = [Name::Release, Name::Finish, Name::Look];

#[derive(Clone, Copy)]
pub struct Call {
    pub name: Name,
    /// The task's number, or the core's.
    pub number: u64,
    pub time: u64,
}

/// What a call that is not refused answers.
pub enum Answer {
    Released { core: u64, deadline: u64 },
    Finished { late: i64 },
    Looked(Choice),
}

impl Call {
    /// The call's line.
    pub fn line(&self) -> String {
        let name = match self.name {
            Name::Release => "release",
            Name::Finish => "finish",
            Name::Look => "look",
        };
        format!("{name} {} {}\n", self.number, self.time)
    }

    /// Makes the call.
    pub fn make(&self, record: &mut Record) -> Result<Answer, u32> {
        let &Call { name, number, time } = self;
        match name {
            Name::Release => {
                let (core, deadline) = record.release(number, time)?;
                Ok(Answer::Released { core, deadline })
            }
            Name::Finish => {
                let late = record.finish(number, time)?;
                Ok(Answer::Finished { late })
            }
            Name::Look => record.look(number, time).map(Answer::Looked),
        }
    }
}
