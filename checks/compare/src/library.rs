// The proved library's entries as methods of a call, with the answers as the library gives them, and the second program's answers in the same form.

use crate::call::Call;
use second::Refused;
pub use seeds::entries::{slice, step};
pub use seeds::raw::{
    Answer, CubesAnswer, SeedAnswer, SliceAnswer, StateAnswer, StopAnswer, TextAnswer,
};
use seeds::{entries, raw, Machine, Settings, TestSlice, TestSlices};

/// The second program's answer as the library gives it.
pub trait Like<T> {
    fn like(told: Result<T, Refused>) -> Self;
}

impl Like<usize> for Answer {
    fn like(told: Result<usize, Refused>) -> Answer {
        let (number, value) = match told {
            Ok(count) => (0, count),
            Err(refused) => (refused.number as usize, refused.value as usize),
        };
        Answer { number, value }
    }
}

/// The number and value of an answer, and what is told beside them: what was found, or 0 where the call is refused.
fn beside<T: Copy + Default>(told: Result<T, Refused>) -> (usize, usize, T) {
    let Answer { number, value } = Answer::like(told.map(|_| 0));
    (number, value, told.unwrap_or_default())
}

impl Like<u64> for StateAnswer {
    fn like(told: Result<u64, Refused>) -> StateAnswer {
        let (number, value, state) = beside(told);
        StateAnswer {
            number,
            value,
            state,
        }
    }
}

impl Like<u64> for SliceAnswer {
    fn like(told: Result<u64, Refused>) -> SliceAnswer {
        let (number, value, slice) = beside(told);
        SliceAnswer {
            number,
            value,
            slice,
        }
    }
}

impl Like<(u64, u64)> for StopAnswer {
    fn like(told: Result<(u64, u64), Refused>) -> StopAnswer {
        let (number, value, (specified, bits)) = beside(told);
        StopAnswer {
            number,
            value,
            specified,
            bits,
        }
    }
}

impl Like<u64> for SeedAnswer {
    fn like(told: Result<u64, Refused>) -> SeedAnswer {
        let (number, value, seed) = beside(told);
        SeedAnswer {
            number,
            value,
            seed,
        }
    }
}

impl Like<(u64, u64, usize)> for CubesAnswer {
    fn like(told: Result<(u64, u64, usize), Refused>) -> CubesAnswer {
        let Answer { number, value } = Answer::like(told.map(|(_, _, seeds)| seeds));
        let (specified, bits, _) = told.unwrap_or_default();
        CubesAnswer {
            number,
            value,
            specified,
            bits,
        }
    }
}

/// A test slice or stop slice of two numbers.
fn test((specified, bits): (u64, u64)) -> TestSlice {
    TestSlice { specified, bits }
}

pub fn stop(chains: usize, specified: &[u64], bits: &[u64]) -> StopAnswer {
    entries::stop(chains, TestSlices { specified, bits })
}

/// The seed list of a sheet. The text is lent to be changed, so that a change can be seen.
pub fn encode_text(text: &mut [u8], out: &mut [u8]) -> TextAnswer {
    unsafe { raw::seeds_encode_text(text.as_mut_ptr(), text.len(), out.as_mut_ptr(), out.len()) }
}

/// The slice lines of a seed list.
pub fn expand_text(text: &mut [u8], out: &mut [u8]) -> TextAnswer {
    unsafe { raw::seeds_expand_text(text.as_mut_ptr(), text.len(), out.as_mut_ptr(), out.len()) }
}

impl Call {
    /// The register with its limit and its inverted chains.
    pub fn settings(&self) -> Settings {
        Settings::new(self.cells, self.taps)
            .with_limit(self.limit)
            .with_invert(self.invert)
    }

    pub fn machine(&self) -> Machine<'_> {
        Machine::new(self.settings(), &self.masks)
    }

    fn set(&self) -> TestSlices<'_> {
        TestSlices {
            specified: &self.specified,
            bits: &self.bits,
        }
    }

    pub fn check_window(&self) -> usize {
        entries::check_window(self.machine(), test(self.stop), self.set())
    }

    pub fn check_set(&self) -> usize {
        entries::check_set(self.machine(), test(self.stop), self.set())
    }

    pub fn check_cubes(&self) -> usize {
        entries::check_cubes(self.machine(), self.depth, self.set())
    }

    pub fn check_stop(&self) -> usize {
        entries::check_stop(self.masks.len(), self.set())
    }

    pub fn check_list(&self) -> usize {
        entries::check_list(
            self.machine(),
            test(self.stop),
            self.slices,
            self.seeds.len(),
        )
    }

    /// The expanding of the call's own seeds.
    pub fn expanded(&self, out: &mut [u64]) -> Answer {
        entries::expand(
            self.machine(),
            test(self.stop),
            self.slices,
            &self.seeds,
            out,
        )
    }

    /// The seed of the call's slices as one window.
    pub fn seed_of_window(&self) -> SeedAnswer {
        entries::window(self.machine(), test(self.stop), self.set())
    }

    /// The encoding of the call's slices with its stop slice.
    pub fn encoded_set(&self, out: &mut [u64]) -> Answer {
        entries::encode_set(self.machine(), test(self.stop), self.set(), out)
    }

    /// The encoding of the call's slices as cubes, with the stop slice by the steps.
    pub fn encoded_cubes(&self, out: &mut [u64]) -> CubesAnswer {
        entries::encode_cubes(self.machine(), self.depth, self.set(), out)
    }
}
