// Sheets for the manual's example of many sheets: of several registers, from a seeded generator, with a fault in every 25th.
// Their names have a space in them, as clerks' files do.

use crate::random::Random;
use std::fs;
use std::path::Path;

/// Registers, by their cells and taps.
const REGISTERS: [(u64, u64); 3] = [(16, 0xd008), (32, 0x8020_0003), (64, 0xd800_0000_0000_0000)];

/// A mask of one to three cells.
fn mask(random: &mut Random, cells: u64) -> u64 {
    (0..3).fold(0, |mask, _| mask | 1 << random.between(0, cells - 1))
}

/// A test slice; one position in eight is specified.
fn slice(random: &mut Random, chains: u64) -> String {
    let character = |_| match random.between(0, 15) {
        0 => '0',
        1 => '1',
        _ => 'x',
    };
    (0..chains).map(character).collect()
}

fn sheet(number: usize) -> String {
    let mut random = Random(number as u64);
    let (cells, taps) = REGISTERS[number % REGISTERS.len()];
    let chains = random.between(8, 24);
    let depth = random.between(1, 8);
    let cubes = random.between(4, 24);
    let mut text = format!("cells={cells}\ntaps={taps:x}\nchains={chains}\n");
    for _ in 0..chains {
        text += &format!("chain={:x}\n", mask(&mut random, cells));
    }
    text += &format!("depth={depth}\n");
    for _ in 0..depth * cubes {
        text += &format!("slice={}\n", slice(&mut random, chains));
    }
    text
}

/// A sheet with a fault: by turns the line ends of another system, a last line that is cut, taps without the last cell, and no slice line.
fn faulty(number: usize) -> String {
    let text = sheet(number);
    match number / 25 % 4 {
        0 => text
            .lines()
            .take_while(|line| !line.starts_with("slice="))
            .map(|line| format!("{line}\n"))
            .collect(),
        1 => text.replace('\n', "\r\n"),
        2 => text.trim_end().to_string(),
        _ => {
            let taps = text.lines().nth(1).unwrap_or_default();
            text.replacen(taps, "taps=1", 1)
        }
    }
}

/// Writes so many sheets into a folder, which is made where it is not there.
pub fn write(folder: &Path, count: &str) -> Result<String, String> {
    let count: usize = count.parse().map_err(|why| format!("{count}: {why}"))?;
    let said = |why: std::io::Error| format!("{}: {why}", folder.display());
    fs::create_dir_all(folder).map_err(said)?;
    for number in 1..=count {
        let text = match number % 25 {
            0 => faulty(number),
            _ => sheet(number),
        };
        let name = format!("chip {number:03}.txt");
        fs::write(folder.join(name), text).map_err(said)?;
    }
    Ok(String::new())
}
