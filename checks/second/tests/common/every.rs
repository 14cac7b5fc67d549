// Holds the making of all small registers, slices and sets for tests that leave none out.

use super::cores::Core;

/// All slices of so many chains: specified positions and bits there.
pub fn all_slices(chains: u64) -> Vec<(u64, u64)> {
    let mut slices = Vec::new();
    for spec in 0..1u64 << chains {
        slices.extend(
            (0..=spec)
                .filter(|bits| bits & !spec == 0)
                .map(|bits| (spec, bits)),
        );
    }
    slices
}

/// All rows of `length` of the entries.
pub fn all_rows<T: Copy>(entries: &[T], length: usize) -> Vec<Vec<T>> {
    let mut rows = vec![Vec::new()];
    for _ in 0..length {
        let longer = |row: &Vec<T>| {
            let row = row.clone();
            entries
                .iter()
                .map(move |&entry| [&row[..], &[entry]].concat())
        };
        rows = rows.iter().flat_map(longer).collect();
    }
    rows
}

/// All sets of so many slices.
pub fn all_sets(chains: u64, slices: usize) -> Vec<(Vec<u64>, Vec<u64>)> {
    let rows = all_rows(&all_slices(chains), slices);
    rows.into_iter()
        .map(|row| row.into_iter().unzip())
        .collect()
}

/// All registers of so many cells with so many chains and each stop slice, for each of the
/// masks of inverted chains.
pub fn all_cores(cells: u64, chains: u64, inverts: &[u64]) -> Vec<Core> {
    let masks: Vec<u64> = (1..1 << cells).collect();
    let mut cores = Vec::new();
    for taps in 1 << (cells - 1)..1 << cells {
        for masks in all_rows(&masks, chains as usize) {
            for stop in all_slices(chains).into_iter().filter(|&(spec, _)| spec > 0) {
                cores.extend(inverts.iter().map(|&invert| Core {
                    cells,
                    taps,
                    invert,
                    masks: masks.clone(),
                    stop,
                }));
            }
        }
    }
    cores
}
