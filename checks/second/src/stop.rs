// Holds the stop slice steps, with what each iteration counted, chose and removed, and
// the spare pattern that is the stop slice when they end with slices in.
// Follows document 004, section III.A, document 01, "Stop slice steps", and document 02, R-1.

use crate::check::{check_chain_count, check_slice_count, check_slices};
use crate::register::low_bits;
use crate::{refuse, Refused};
use std::collections::BTreeSet;

/// One iteration of the steps.
#[derive(Clone, Debug, PartialEq, Eq)]
pub struct Iteration {
    /// The number of 0s at each position, set or unset, over the slices still in.
    pub zeros: Vec<u64>,
    /// The number of 1s at each position, set or unset, over the slices still in.
    pub ones: Vec<u64>,
    /// The position chosen, from 1.
    pub position: u64,
    /// The bit that the stop slice gets there.
    pub bit: u64,
    /// The places, from 0, of the slices removed.
    pub removed: Vec<usize>,
}

/// The whole run of the steps.
#[derive(Clone, Debug, PartialEq, Eq)]
pub struct StopTrace {
    pub iterations: Vec<Iteration>,
    /// The positions that the steps set and the bits there: the stop slice if no slice is left.
    pub stop_spec: u64,
    pub stop_bits: u64,
    /// The places, from 0, of the slices still in at the end; if any, every position is set,
    /// and not these steps but the spare pattern decides.
    pub left: Vec<usize>,
}

/// True if the slice has `bit` specified at the position of `weight`.
fn has(spec: u64, bits: u64, weight: u64, bit: u64) -> bool {
    spec & weight != 0 && (bits & weight != 0) == (bit == 1)
}

/// How many of the slices still in have `bit` at each position.
fn count(chains: u64, spec: &[u64], bits: &[u64], still_in: &[usize], bit: u64) -> Vec<u64> {
    let mut counts = Vec::new();
    for position in 0..chains {
        let mut found = 0;
        for &place in still_in {
            if has(spec[place], bits[place], 1 << position, bit) {
                found += 1;
            }
        }
        counts.push(found);
    }
    counts
}

/// The unset position (from 0) and bit of the greatest count: the leftmost on a tie, and
/// there 0 before 1. If every count is 0 this is the leftmost unset position with bit 0,
/// whose complement is 1. None if every position is set.
fn choose(zeros: &[u64], ones: &[u64], set: u64) -> Option<(u64, u64)> {
    let mut best: Option<(u64, u64, u64)> = None;
    for position in 0..zeros.len() as u64 {
        if set & (1 << position) != 0 {
            continue;
        }
        for (bit, counts) in [(0, zeros), (1, ones)] {
            let here = counts[position as usize];
            if best.is_none_or(|(greatest, _, _)| here > greatest) {
                best = Some((here, position, bit));
            }
        }
    }
    best.map(|(_, position, bit)| (position, bit))
}

/// Runs the published steps and returns all iterations, whether or not they end with slices
/// in. Causes 2, 3, 4.
pub fn stop_trace(chains: u64, spec: &[u64], bits: &[u64]) -> Result<StopTrace, Refused> {
    check_chain_count(chains)?;
    check_slice_count(spec.len() as u64)?;
    check_slices(chains, spec, bits)?;
    let mut trace = StopTrace {
        iterations: Vec::new(),
        stop_spec: 0,
        stop_bits: 0,
        left: (0..spec.len()).collect(),
    };
    while !trace.left.is_empty() {
        let zeros = count(chains, spec, bits, &trace.left, 0);
        let ones = count(chains, spec, bits, &trace.left, 1);
        let Some((position, counted)) = choose(&zeros, &ones, trace.stop_spec) else {
            break;
        };
        let weight = 1u64 << position;
        let bit = 1 - counted;
        trace.stop_spec |= weight;
        trace.stop_bits |= bit << position;
        // A slice with the counted bit or x there goes out; one with the set bit stays.
        let (stay, removed) = trace
            .left
            .iter()
            .partition(|&&place| has(spec[place], bits[place], weight, bit));
        trace.left = stay;
        trace.iterations.push(Iteration {
            zeros,
            ones,
            position: position + 1,
            bit,
            removed,
        });
    }
    Ok(trace)
}

/// The smallest fully specified pattern, as a number in which chain j has weight 2^(j-1),
/// that no fully specified slice equals. None if these take up all 2^chains patterns. For
/// chains and slices that have passed causes 2 and 4.
pub fn spare_pattern(chains: u64, spec: &[u64], bits: &[u64]) -> Option<u64> {
    let all = low_bits(chains);
    let mut taken = BTreeSet::new();
    for (&places, &values) in spec.iter().zip(bits) {
        if places == all {
            taken.insert(values);
        }
    }
    // Every try but the last meets another taken pattern, so the walk is short.
    (0..=all).find(|pattern| !taken.contains(pattern))
}

/// The stop slice: specified positions and bits. The steps decide if they end with no slice
/// in, else the spare pattern, fully specified. Causes 2, 3, 4, and 6 if there is none.
pub fn stop_slice(chains: u64, spec: &[u64], bits: &[u64]) -> Result<(u64, u64), Refused> {
    let trace = stop_trace(chains, spec, bits)?;
    if trace.left.is_empty() {
        return Ok((trace.stop_spec, trace.stop_bits));
    }
    match spare_pattern(chains, spec, bits) {
        Some(pattern) => Ok((low_bits(chains), pattern)),
        None => refuse(6, 0),
    }
}
