//! What every sort of table is made as.

/// A core count and a table, cost then period for each task.
#[derive(Clone, Debug)]
pub struct Table {
    pub cores: u32,
    pub numbers: Vec<u32>,
}
