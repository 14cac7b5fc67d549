// The stop slice of a set, the seed of a window and the fewest seeds of a set.
// Document 01, "Stop slice steps" and "Covering and cutting".

use crate::{entries, Machine, Refusal, TestSlice, TestSlices};

/// An accepted set that came as cubes: its stop slice, and how many seeds were written.
#[derive(Clone, Copy, Debug, PartialEq, Eq)]
pub struct Encoded {
    pub stop: TestSlice,
    pub seeds: usize,
}

/// The stop slice of a set. Causes 2, 3, 4, then 6.
pub fn stop_slice(chains: usize, set: TestSlices) -> Result<TestSlice, Refusal> {
    let told = entries::stop(chains, set);
    Refusal::unless_accepted(told.number, told.value)?;
    Ok(TestSlice {
        specified: told.specified,
        bits: told.bits,
    })
}

/// The lowest state that covers a window, which closes with its stop. Causes 1 to 5, then 7.
pub fn window_seed(machine: Machine, stop: TestSlice, window: TestSlices) -> Result<u64, Refusal> {
    let told = entries::window(machine, stop, window);
    Refusal::unless_accepted(told.number, told.value)?;
    Ok(told.seed)
}

/// The fewest seeds of a set with its stop slice, written into `out`; how many. Causes 1 to 5, then 8, then 9.
/// As many entries as the set has slices are always enough.
///
/// Every window but the one that ends the set closes with its stop. That one is covered when its slices agree and none shows the stop: its seed is the lowest such state, 0 too. The value of 8 counts slices in windows that all close.
///
/// The buffer is not one of the lists:
/// ```compile_fail
/// use seeds::{encode_set, Machine, Settings, TestSlice, TestSlices};
/// let mut words = [1u64, 4];
/// let machine = Machine::new(Settings::new(3, 6), &words);
/// let stop = TestSlice { specified: 1, bits: 0 };
/// let set = TestSlices { specified: &[1], bits: &[1] };
/// let _ = encode_set(machine, stop, set, &mut words);
/// ```
pub fn encode_set(
    machine: Machine,
    stop: TestSlice,
    set: TestSlices,
    out: &mut [u64],
) -> Result<usize, Refusal> {
    let told = entries::encode_set(machine, stop, set, out);
    Refusal::unless_accepted(told.number, told.value)?;
    Ok(told.value)
}

/// The stop slice of a set that comes as cubes of `depth` slices, and its fewest seeds, written into `out`. Causes 1 to 4, then 6, 8, then 9. The windows are those of [`encode_set`].
pub fn encode_cubes(
    machine: Machine,
    depth: usize,
    set: TestSlices,
    out: &mut [u64],
) -> Result<Encoded, Refusal> {
    let told = entries::encode_cubes(machine, depth, set, out);
    Refusal::unless_accepted(told.number, told.value)?;
    Ok(Encoded {
        stop: TestSlice {
            specified: told.specified,
            bits: told.bits,
        },
        seeds: told.value,
    })
}
