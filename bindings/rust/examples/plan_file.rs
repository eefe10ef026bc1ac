//! Plans the town of a survey file and prints the listing of its plan:
//!
//! ```sh
//! cargo run --example plan_file town.survey       # or: cargo run --example plan_file < town.survey
//! ```
//!
//! A file or town that is refused gets the line `refused N`, and on standard error what is wrong and what to do; the exit status is then 1.
//! It is 2 where the file can't be read or the listing can't be written.
use planner::{Plan, Refusal, Survey, SurveyFile};
use std::io::{self, Read, Write};
use std::process::ExitCode;
use std::{env, fs};

/// The file's bytes, or what failed.
fn file_bytes() -> Result<Vec<u8>, String> {
    let Some(name) = env::args_os().nth(1) else {
        let mut bytes = Vec::new();
        return io::stdin().read_to_end(&mut bytes).map(|_| bytes).map_err(|error| format!("standard input: {error}"));
    };
    fs::read(&name).map_err(|error| format!("{}: {error}", name.to_string_lossy()))
}

/// The survey and the plan that the file asks for.
fn planned(bytes: &[u8]) -> Result<(Survey, Plan), Refusal> {
    let file = SurveyFile::read(bytes)?;
    let plan = file.plan()?;
    Ok((file.into_survey(), plan))
}

/// The listing: the total, the sites, and for each street its site and the place that it gave this site, 0 where it has none.
fn listing(survey: &Survey, plan: &Plan) -> String {
    let sites: String = plan.sites.iter().map(|site| format!(" {site}")).collect();
    let mut text = format!("total {}\nsites{sites}\n", plan.total);
    for (street, site) in &plan.division {
        let list = survey.list(street).unwrap_or_default();
        let place = site.and_then(|site| list.iter().position(|&named| named == site)).map_or(0, |index| index + 1);
        text += &format!("street {street} {} {place}\n", site.unwrap_or(0));
    }
    text
}

fn main() -> ExitCode {
    let bytes = match file_bytes() {
        Ok(bytes) => bytes,
        Err(failure) => {
            eprintln!("plan_file: {failure}");
            return ExitCode::from(2);
        }
    };
    let (text, status) = match planned(&bytes) {
        Ok((survey, plan)) => (listing(&survey, &plan), 0),
        Err(refusal) => {
            eprintln!("plan_file: {refusal}");
            (format!("refused {}\n", refusal.number()), 1)
        }
    };
    if let Err(error) = io::stdout().write_all(text.as_bytes()).and_then(|()| io::stdout().flush()) {
        eprintln!("plan_file: standard output: {error}");
        return ExitCode::from(2);
    }
    ExitCode::from(status)
}
