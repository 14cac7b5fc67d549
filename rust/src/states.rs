// One step of a register and the slice of a state. Document 01, "Register and chains".

use crate::{entries, Machine, Refusal, Settings};

/// The state after one step. Causes 1, then 10 with 0.
pub fn step(settings: Settings, state: u64) -> Result<u64, Refusal> {
    let told = entries::step(settings, state);
    Refusal::unless_accepted(told.number, told.value)?;
    Ok(told.state)
}

/// The slice of a state. Causes 1 and 2, then 10 with 0.
pub fn slice(machine: Machine, state: u64) -> Result<u64, Refusal> {
    let told = entries::slice(machine, state);
    Refusal::unless_accepted(told.number, told.value)?;
    Ok(told.slice)
}
