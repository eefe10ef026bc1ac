//! The crate, include/planner.h and the repository's README say the same: refusals, constants, version and functions.
use planner::{Form, Kind, Loads, Refusal};
use std::mem;

const HEADER: &str = include_str!("../../../include/planner.h");
const README: &str = include_str!("../../../README.md");
const RAW: &str = include_str!("../src/raw.rs");

/// The cells of the README's table of refusals, row by row, without the backticks around a file's marks.
fn readme_rows() -> Vec<Vec<String>> {
    let table = README.lines().skip_while(|line| !line.starts_with("| N | what is wrong |")).skip(2);
    let cells = |line: &str| line.trim_matches('|').split('|').map(|cell| cell.trim().replace('`', "")).collect();
    table.take_while(|line| line.starts_with('|')).map(cells).collect()
}

#[test]
fn the_readme_has_the_refusals() {
    let row = |refusal: &Refusal| {
        let columns = [refusal.what_is_wrong(), refusal.whose(), refusal.what_to_do()];
        [refusal.number().to_string()].into_iter().chain(columns.map(String::from)).collect()
    };
    let rows: Vec<Vec<String>> = Refusal::ALL.iter().map(row).collect();
    assert_eq!(readme_rows(), rows);
}

/// The name of a refusal in C, such as FILE_ENDS for FileEnds.
fn name_in_c(refusal: Refusal) -> String {
    let mut name = String::new();
    for letter in format!("{refusal:?}").chars() {
        if letter.is_uppercase() && !name.is_empty() {
            name.push('_');
        }
        name.push(letter.to_ascii_uppercase());
    }
    name
}

/// The header's list of refusals: the line of each, under the comment that says whose it is.
fn header_lines() -> Vec<String> {
    let list = HEADER.lines().skip_while(|line| !line.starts_with("#define PLANNER_REFUSALS(REFUSAL)")).skip(1);
    // every line but the last is carried on by a backslash
    let mut more = true;
    let list = list.take_while(|line| mem::replace(&mut more, line.ends_with('\\')));
    list.map(|line| line.trim_end_matches('\\').trim().to_string()).collect()
}

#[test]
fn the_header_has_the_refusals() {
    let (mut lines, mut whose) = (Vec::new(), "");
    for &refusal in Refusal::ALL {
        if mem::replace(&mut whose, refusal.whose()) != whose {
            lines.push(format!("/* the {whose} */"));
        }
        lines.push(format!("REFUSAL({}, {}, \"{refusal}\")", refusal.number(), name_in_c(refusal)));
    }
    assert_eq!(header_lines(), lines);
}

/// The number that the header defines under a name.
fn defined(name: &str) -> usize {
    let value = HEADER.lines().find_map(|line| line.strip_prefix(&format!("#define {name} ")));
    let digits: String = value.unwrap_or_default().chars().take_while(char::is_ascii_digit).collect();
    digits.parse().unwrap_or_else(|_| panic!("planner.h has no number {name}"))
}

#[test]
fn the_header_has_the_constants() {
    let constants = [
        ("PLANNER_MAX_STREETS", planner::MAX_STREETS),
        ("PLANNER_MAX_SITES", planner::MAX_SITES),
        ("PLANNER_TOP_SCORE", planner::TOP_SCORE.into()),
        ("PLANNER_TOP_WEIGHT", planner::TOP_WEIGHT.into()),
        ("PLANNER_MOST_LOAD", Loads::MOST as usize),
        ("PLANNER_SCORES_LENGTH", planner::SCORES_LENGTH),
        ("PLANNER_WEIGHTS_LENGTH", planner::WEIGHTS_LENGTH),
        ("PLANNER_ROWS_LENGTH", planner::ROWS_LENGTH),
        ("PLANNER_FILE_LENGTH", planner::FILE_LENGTH),
        ("PLANNER_FREE", Kind::Free.into()),
        ("PLANNER_BALANCED", Kind::Balanced.into()),
        ("PLANNER_OLD_FORM", Form::Old.into()),
        ("PLANNER_NEW_FORM", Form::New.into()),
        ("PLANNER_VERSION", planner::VERSION as usize),
    ];
    assert_eq!(constants.map(|(name, _)| (name, defined(name))), constants);
}

#[test]
fn the_archive_and_the_package_have_the_version() {
    assert_eq!(planner::version(), planner::VERSION);
    let package = format!("{}{:02}", env!("CARGO_PKG_VERSION_MAJOR"), env!("CARGO_PKG_VERSION_MINOR").parse::<u32>().expect("a number"));
    assert_eq!(package, planner::VERSION.to_string());
}

/// Every place where a text has the function, as the text between its parentheses.
fn parameters<'a>(text: &'a str, function: &str) -> Vec<&'a str> {
    let open = format!(" {function}(");
    text.split(&open as &str).skip(1).map(|rest| rest.split(')').next().unwrap_or_default()).collect()
}

/// The parameters' names in C, where a name is the last word.
fn names_in_c(parameters: &str) -> Vec<&str> {
    parameters.split(',').filter_map(|one| one.trim().rsplit([' ', '*']).next()).filter(|&name| name != "void").collect()
}

/// The parameters' names in Rust, where a name stands before a colon.
fn names_in_rust(parameters: &str) -> Vec<&str> {
    parameters.split(',').filter_map(|one| Some(one.split_once(':')?.0.trim())).collect()
}

#[test]
fn the_header_has_the_functions() {
    let functions: Vec<&str> = RAW.split("fn ").skip(1).filter_map(|rest| rest.split('(').next()).collect();
    assert_eq!(functions.len(), 13);
    for function in functions {
        let names = names_in_rust(parameters(RAW, function)[0]);
        let declared = parameters(HEADER, function).into_iter().any(|one| names_in_c(one) == names);
        assert!(declared, "planner.h has no {function} with the parameters {names:?}");
    }
}
