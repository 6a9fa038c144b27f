//! How much is run: all of it for the tables of docs/bench.md, little to see that it runs.

pub struct Effort {
    /// Inputs on which the versions must agree, byte for byte.
    pub compared: usize,
    /// Calls in a batch, and batches of each contender; the contenders take turns.
    pub batch: usize,
    pub rounds: usize,
    /// Calls whose error is taken.
    pub judged: usize,
    /// Lines of a sheet, and runs of each program.
    pub lines: usize,
    pub sheet_rounds: usize,
    /// Whether valgrind counts instructions.
    pub counts: bool,
}

pub const FULL: Effort = Effort {
    compared: 1_000_000,
    batch: 2_000,
    rounds: 101,
    judged: 10_000,
    lines: 1_000_000,
    sheet_rounds: 9,
    counts: true,
};

pub const QUICK: Effort = Effort {
    compared: 100_000,
    batch: 500,
    rounds: 11,
    judged: 200,
    lines: 50_000,
    sheet_rounds: 3,
    counts: false,
};
