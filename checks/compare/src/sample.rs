// The definitions against the second program: a specification file that states the second program's answers on random inputs.
// The proof checker computes each answer from the definitions of specs/ and refuses the file where one differs.

mod calls;
mod ends;
mod stops;
mod table;
mod texts;

use crate::random::Random;
use calls::Given;
use std::collections::{BTreeMap, BTreeSet};
use std::fmt::Write;
use std::fs;
use std::io;
use std::path::Path;

/// The parts of the house whose definitions the answers are computed from.
const PARTS: [&str; 8] = [
    "words_",
    "refusal_",
    "machine_",
    "theory_",
    "stop_",
    "encoder_",
    "expander_",
    "text_",
];

/// The crates of these parts that state theorems about whole texts: no answer is computed from them.
const THEOREMS: [&str; 3] = ["text_bounds", "text_readback", "text_roundtrip"];

/// The crates whose definitions the answers are computed from and that have any.
fn crates(root: &Path) -> io::Result<Vec<String>> {
    let names = fs::read_dir(root.join("crates"))?
        .filter_map(|entry| entry.ok()?.file_name().into_string().ok())
        .filter(|name| PARTS.iter().any(|part| name.starts_with(part)))
        .filter(|name| !THEOREMS.contains(&name.as_str()))
        .filter(|name| root.join("crates").join(name).join("specs").is_dir());
    Ok(names.collect())
}

/// The definitions that unfold, as `use` lines, and the names that they have in the file.
fn definitions(root: &Path) -> io::Result<(String, Vec<String>)> {
    let mut found: BTreeMap<(String, String), Vec<String>> = BTreeMap::new();
    for name in crates(root)? {
        let mut files: Vec<_> = fs::read_dir(root.join("crates").join(&name).join("specs"))?
            .filter_map(|entry| entry.ok().map(|entry| entry.path()))
            .filter(|path| path.extension().is_some_and(|ending| ending == "antt"))
            .collect();
        files.sort();
        for path in files {
            let module = path
                .file_stem()
                .unwrap_or_default()
                .to_string_lossy()
                .into_owned();
            let text = fs::read_to_string(&path)?;
            let names = text
                .lines()
                .filter_map(|line| line.trim().strip_prefix("unfoldable pub "));
            for word in names.filter_map(|rest| rest.split_whitespace().next()) {
                found
                    .entry((name.clone(), module.clone()))
                    .or_default()
                    .push(word.to_string());
            }
        }
    }
    let mut lines = String::new();
    let mut taken = BTreeSet::new();
    for ((name, module), words) in &found {
        let mut list = Vec::new();
        for word in words {
            // a name that an earlier crate has too gets the crate's name in front
            let own = if taken.contains(word) {
                format!("{name}_{word}")
            } else {
                word.clone()
            };
            list.push(if own == *word {
                own.clone()
            } else {
                format!("{word} as {own}")
            });
            taken.insert(own);
        }
        let _ = writeln!(
            lines,
            "use Rattle.{name}.specs.{module}.{{{}}}",
            list.join(", ")
        );
    }
    Ok((lines, taken.into_iter().collect()))
}

const HEADER: &str = "-- Answers of the second program on random inputs, against the definitions.
use Rattle.std.specs.Prelude.{◌≡◌, refl, List, [], ◌∷◌, ℕ, Result, Ok, Err}
use Rattle.std.specs.Int.Count.{ones, ones_in}
use Rattle.refusal_causes.specs.declared.Cause.TheVariants as cause
use Rattle.refusal_causes.specs.declared.Cause.{Cause}
use Rattle.refusal_causes.specs.Outcome.{Outcome}
use Rattle.machine_settings.specs.Machine.{base, machine}
use Rattle.machine_slices.specs.declared.TestSlice.{TestSlice}
use Rattle.encoder_meaning.specs.Encoding.{seeds_with}
use Rattle.encoder_cubes.specs.Cubes.{CubesOutcome}
use Rattle.text_keys.specs.Bytes.{bytes}
use Rattle.text_calls.specs.Texts.{encode_text, expand_text}
";

/// Writes the file and answers how many answers it states.
pub fn write(root: &Path, file: &Path) -> io::Result<usize> {
    let mut random = Random(9);
    let (default, limits, inverts) = (Given::Neither, Given::Limits, Given::Inverts);
    let tables = [
        calls::windows(&mut random, default, 500),
        calls::sets(&mut random, default, 400),
        calls::lists(&mut random, default, 400),
        stops::stops(&mut random, 400),
        texts::texts(&mut random, default, 800),
        stops::stages(&mut random, 100),
        calls::cubes(&mut random, default, 100),
        calls::windows(&mut random, limits, 200),
        calls::sets(&mut random, limits, 200),
        calls::cubes(&mut random, limits, 200),
        calls::lists(&mut random, limits, 200),
        texts::texts(&mut random, limits, 400),
        calls::slices(&mut random, 100),
        calls::windows(&mut random, inverts, 75),
        calls::sets(&mut random, inverts, 75),
        calls::cubes(&mut random, inverts, 75),
        calls::lists(&mut random, inverts, 75),
        texts::texts(&mut random, inverts, 100),
        ends::sets(&mut random, 150),
        ends::lists(&mut random, 250),
    ];
    let (lines, names) = definitions(root)?;
    let unfolding = format!("ones ones_in {}", names.join(" "));
    let mut out = format!("{HEADER}{lines}");
    for table in &tables {
        table.print(&unfolding, &mut out);
    }
    fs::write(file, out)?;
    Ok(tables.iter().map(|table| table.rows.len()).sum())
}
