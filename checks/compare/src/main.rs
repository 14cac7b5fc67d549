// The test program: the proved library, the two programs, document 01's bench examples and document 004's figure 2, against the second program.
// Prints a line for each case and ends with `N passed, M failed`.
// `compare texts N` runs the cases over texts alone, with N random texts for the library and N for the programs.
// `compare load N` runs the load test with N sheets.

mod bench;
mod call;
mod child;
mod damage;
mod encodes;
mod expands;
mod figure;
mod inputs;
mod inverted;
mod known;
mod largest;
mod leaves;
mod lent;
mod library;
mod limits;
mod load;
mod marks;
mod notes;
mod open_end;
mod order;
mod placed;
mod programs;
mod random;
mod remarks;
mod report;
mod runs;
mod sample;
mod seen;
mod sheets;
mod small;
mod spares;
mod stops;
mod tally;
mod text;
mod texts;
mod values;
mod wide;
mod window_limit;
mod windows;

use report::Report;
use std::io::Write;
use std::path::Path;
use std::process::{Command, ExitCode, Stdio};
use window_limit::texts::{by_library, by_programs};
use window_limit::{damaged, every, few, growing, lines, lists, outside};

/// Runs the second program, which is built beside this one, with a standard input.
fn second_program(word: &str, input: &str) -> Result<String, String> {
    let here = std::env::current_exe().map_err(|e| e.to_string())?;
    let path = here.with_file_name("second");
    let mut child = Command::new(path)
        .arg(word)
        .stdin(Stdio::piped())
        .stdout(Stdio::piped())
        .spawn()
        .map_err(|e| format!("the second program does not start: {e}"))?;
    let mut pipe = child.stdin.take().ok_or("no standard input")?;
    pipe.write_all(input.as_bytes())
        .map_err(|e| e.to_string())?;
    drop(pipe);
    let done = child.wait_with_output().map_err(|e| e.to_string())?;
    String::from_utf8(done.stdout).map_err(|e| e.to_string())
}

/// `compare sample ROOT FILE` writes the specification file that states the second program's answers.
fn sample(root: &str, file: &str) -> ExitCode {
    match sample::write(Path::new(root), Path::new(file)) {
        Ok(count) => {
            println!("{count} answers stated");
            ExitCode::SUCCESS
        }
        Err(why) => {
            println!("{file} is not written: {why}");
            ExitCode::FAILURE
        }
    }
}

/// `compare texts N`.
fn texts_alone(count: &str) -> ExitCode {
    let Ok(count) = count.parse() else {
        println!("{count} is no number of texts");
        return ExitCode::FAILURE;
    };
    let mut report = Report::new();
    library_texts(&mut report, count);
    program_texts(&mut report, count);
    if report.end() {
        ExitCode::SUCCESS
    } else {
        ExitCode::FAILURE
    }
}

fn main() -> ExitCode {
    let words: Vec<String> = std::env::args().skip(1).collect();
    let words: Vec<&str> = words.iter().map(String::as_str).collect();
    match words[..] {
        ["sample", root, file] => return sample(root, file),
        ["texts", count] => return texts_alone(count),
        ["load", count] => return load::run(count),
        _ => {}
    }
    let mut report = Report::new();
    examples(&mut report);
    library_leaves(&mut report);
    library_encodes(&mut report);
    library_limits(&mut report);
    library_inverts(&mut report);
    library_open_ends(&mut report);
    library_texts(&mut report, texts::RANDOM_TEXTS);
    program_texts(&mut report, programs::RANDOM_TEXTS);
    if report.end() {
        ExitCode::SUCCESS
    } else {
        ExitCode::FAILURE
    }
}

/// The papers' examples, and the second program against brute force.
fn examples(report: &mut Report) {
    report.case("bench examples, starred", bench::starred());
    report.case(
        "bench examples, the sheet and its list",
        bench::sheet(second_program),
    );
    report.case("bench examples, limits", bench::limits());
    report.case("figure 2, counted", figure::counts());
    report.case("figure 2, printed", figure::printed(second_program));
    report.case("figure 2, by the library", figure::by_library());
    report.case("small sets against brute force", small::sets());
    report.case("small windows against brute force", small::windows());
    report.case("small sets encoded and expanded", small::round_trips());
}

/// The library's leaves, checks, stop slice and expanding.
fn library_leaves(report: &mut Report) {
    report.case("library: step", leaves::steps());
    report.case("library: slice", leaves::slices());
    report.case("library: checks of small calls", leaves::checks());
    report.case("library: checks of wide calls", leaves::wide_checks());
    report.case("library: stop slice", stops::answers());
    report.case(
        "library: stop slice of every small set",
        spares::every_small_set(),
    );
    report.case(
        "library: stop slice where all patterns but one are taken",
        spares::all_but_one(),
    );
    report.case("library: stop slice of many chains", spares::many_chains());
    report.case("library: expanding", expands::answers());
}

/// The library's seeds of windows and encoding of sets.
fn library_encodes(report: &mut Report) {
    report.case("library: windows of the bench", windows::examples());
    report.case(
        "library: windows against brute force",
        windows::against_brute_force(),
    );
    report.case("library: windows", windows::answers());
    report.case("library: sets of the bench", encodes::examples());
    report.case(
        "library: sets against brute force",
        encodes::against_brute_force(),
    );
    report.case("library: damaged sets", encodes::damaged());
    report.case("library: sets at the limits", limits::answers());
    report.case("library: sets of 64 cells", wide::answers());
}

/// The library under limits of windows.
fn library_limits(report: &mut Report) {
    report.case("library: limits outside 1 to 256", outside::answers());
    report.case("library: damaged calls at any limit", damaged::answers());
    report.case("library: every limit, slices of x", every::free());
    report.case("library: every limit, delivered sets", every::delivered());
    report.case("library: every limit, packed cubes", every::packed_cubes());
    report.case("library: every limit, lists", lists::answers());
    report.case(
        "library: small limits, every small list",
        lists::every_small_list(),
    );
    report.case(
        "library: small limits against brute force",
        few::random_sets(),
    );
    report.case(
        "library: small limits, every small set",
        few::every_small_set(),
    );
    report.case("library: limits beyond the set", few::beyond_the_set());
    report.case("library: growing limits", growing::answers());
}

/// The library under inverted chains.
fn library_inverts(report: &mut Report) {
    use inverted::{every, many, outside, stops, turning, zero};
    report.case("library: inverted chains of the bench", every::examples());
    report.case("library: every mask of few chains, slices", every::slices());
    report.case(
        "library: every mask of few chains against brute force",
        every::random_sets(),
    );
    report.case("library: every mask of few chains, lists", every::lists());
    report.case("library: masks, every small set", every::every_small_set());
    report.case(
        "library: masks, every small list",
        every::every_small_list(),
    );
    report.case("library: masks, state 0", zero::answers());
    report.case("library: masks beyond the chains", outside::answers());
    report.case("library: masks of many chains", many::answers());
    report.case("library: bits turned with chains", turning::answers());
    report.case("library: stop slice under masks", stops::answers());
}

/// The library where the last window need not close.
fn library_open_ends(report: &mut Report) {
    use open_end::{lengths, lists, sets, wide, wrong};
    report.case("library: open end, every small set", sets::one_chain());
    let sets = sets::two_chains();
    report.case("library: open end, every small set of two chains", sets);
    let every = lists::every_small_list();
    report.ended("library: open end, every small list", every);
    report.case("library: open end, every limit", lengths::answers());
    let wrong = wrong::answers();
    report.ended("library: open end, wrong lists", wrong);
    report.case("library: open end, wide registers", wide::answers());
}

/// The library's entries for texts.
fn library_texts(report: &mut Report, count: usize) {
    report.texts("library: known texts", texts::known(known::all()));
    report.texts("library: known window lines", texts::known(lines::all()));
    let known = texts::known(inverted::lines::all());
    report.texts("library: known invert lines", known);
    let orders = inverted::orders::by_library();
    report.texts("library: invert and window lines in every order", orders);
    report.texts("library: texts at every limit", by_library());
    let masks = inverted::texts::by_library();
    report.texts("library: texts under masks", masks);
    let ends = open_end::texts::by_library();
    report.texts("library: texts, open end", ends);
    report.texts("library: texts byte by byte", texts::byte_by_byte());
    report.texts("library: large texts", texts::large());
    report.texts("library: random texts", texts::random(count));
}

/// The two programs.
fn program_texts(report: &mut Report, count: usize) {
    let paths = match programs::Paths::find() {
        Ok(paths) => paths,
        Err(why) => return report.case("programs", Err(why)),
    };
    let known = programs::known(&paths, known::all());
    report.texts("programs: known texts", known);
    let lines = programs::known(&paths, lines::all());
    report.texts("programs: known window lines", lines);
    let lines = programs::known(&paths, inverted::lines::all());
    report.texts("programs: known invert lines", lines);
    let orders = inverted::orders::by_programs(&paths);
    report.texts("programs: invert and window lines in every order", orders);
    report.texts("programs: texts cut off", programs::cut(&paths));
    report.texts("programs: texts at every limit", by_programs(&paths));
    let masks = inverted::texts::by_programs(&paths);
    report.texts("programs: texts under masks", masks);
    let ends = open_end::texts::by_programs(&paths);
    report.texts("programs: texts, open end", ends);
    report.texts("programs: large texts", programs::large(&paths));
    report.texts("programs: pieces and pauses", programs::in_pieces(&paths));
    report.texts("programs: encode into expand", programs::both(&paths));
    report.texts("programs: random texts", programs::random(&paths, count));
}
