// The causes of refusal, in c/seeds.h, in the wrapper and in docs/library.md, against the library's own refusal sheet.

mod common;

use common::{file, snake, text};
use seeds::{Cause, Refusal};

/// The names of the causes by number, from `Cause::Name => sheet_line(number, ..)` and `Cause::Name(x) => ..`.
fn sheet() -> Vec<(usize, String)> {
    let source = file("crates/refusal_causes/src/lib.rt");
    let (_, arms) = source.split_once("match cause {").expect("the sheet");
    let arms = arms.split("Cause::").skip(1);
    arms.map(|arm| {
        let end = arm.find(|letter: char| !letter.is_alphanumeric());
        let name = &arm[..end.expect("an arm")];
        let (_, number) = arm.split_once("sheet_line(").expect("a line of the sheet");
        let (number, _) = number.split_once(',').expect("a number");
        (number.parse().expect("a number"), name.to_string())
    })
    .collect()
}

#[test]
fn the_sheet_has_fourteen_causes() {
    let numbers: Vec<usize> = sheet().iter().map(|(number, _)| *number).collect();
    assert_eq!(numbers, (1..=14).collect::<Vec<_>>());
}

#[test]
fn the_header_has_them() {
    let named = |(number, name): (usize, String)| {
        let name = snake(&name).to_uppercase();
        format!("SEEDS_{name} = {number}")
    };
    let accepted = "SEEDS_ACCEPTED = 0".to_string();
    let all: Vec<String> = [accepted]
        .into_iter()
        .chain(sheet().into_iter().map(named))
        .collect();
    let declared = format!("enum seeds_cause {{ {} }};", all.join(", "));
    assert!(file("c/seeds.h").contains(&declared), "{declared}");
}

#[test]
fn the_wrapper_has_them() {
    for (number, name) in sheet() {
        let cause = Cause::of(number).expect("a cause");
        assert_eq!((cause as usize, format!("{cause:?}")), (number, name));
        let refusal = Refusal::new(number, 0);
        assert!(refusal.is(cause));
        assert_eq!(refusal.cause(), cause.text());
    }
    for number in [0, 15, usize::MAX] {
        assert_eq!(Cause::of(number), None);
    }
}

/// The cells of each row of the refusals in docs/library.md, without backticks.
fn documented() -> Vec<Vec<String>> {
    let document = text("docs/library.md").replace('`', "");
    let (_, rows) = document.split_once("## The refusals").expect("the section");
    let rows = rows.lines().skip_while(|line| !line.starts_with("|---"));
    let rows = rows.skip(1).take_while(|line| line.starts_with('|'));
    let cells = |row: &str| {
        row.trim_matches('|')
            .split('|')
            .map(|cell| cell.trim().to_string())
            .collect()
    };
    rows.map(cells).collect()
}

#[test]
fn the_document_has_them_in_the_same_words() {
    let rows = documented();
    assert_eq!(rows.len(), 14);
    for (row, (number, name)) in rows.iter().zip(sheet()) {
        let cause = Cause::of(number).expect("a cause");
        let c = format!("SEEDS_{}", snake(&name).to_uppercase());
        assert_eq!(
            row[..4],
            [number.to_string(), c, name, cause.text().to_string()]
        );
    }
}
