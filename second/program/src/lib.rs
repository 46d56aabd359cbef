//! A planner and dispatcher for sporadic tasks on equal cores, written from its rules alone.
#![forbid(unsafe_code)]

pub mod arrival;
pub mod assign;
pub mod bounds;
pub mod choice;
mod choices;
pub mod day;
mod diary;
mod dispatch;
mod early;
pub mod host;
pub mod limits;
pub mod listing;
mod name;
pub mod office;
pub mod plan;
pub mod player;
pub mod program;
pub mod record;
pub mod refusal;
pub mod rehearse;
pub mod sheet;
pub mod sheets;
pub mod skipping;
mod sound;
pub mod task;
pub mod text;
pub mod ticking;
pub mod turn;
mod work;
