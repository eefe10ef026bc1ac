//! Bring-site plans: which container sites a town should pay for, and which site each street goes to.
//!
//! Each street of a town hands in a list of sites, best first. A place in a list has a score, and a street gives a site the score of the
//! place at which it has ranked it, 0 where it has not. Streets of many households may count for more: each has a weight, 1 to 99, by which
//! its scores are multiplied. The planning office says how many sites, K, it can pay for. A plan is K sites, a site for each street, and the
//! total of the scores that the streets give their sites. There are two kinds ([`Kind`]): in a *free* plan each street goes to the chosen
//! site that it likes best, and in a *balanced* plan every site serves the same number of streets, or the sites chosen first serve one more
//! where the streets don't divide evenly.
//!
//! The crate calls a library that is proved: every call, on every input, gives exactly what its rule says, or one numbered [`Refusal`].
//!
//! # Example
//! ```
//! use planner::{Kind, Refusal, Survey};
//!
//! # fn main() -> Result<(), Refusal> {
//! // three sites; first place scores 2, second 1, third 0; four streets, of which the third has ranked two sites
//! let survey = Survey::new(&[2, 1, 0], &[&[1, 2, 3][..], &[1, 3, 2], &[2, 1], &[3, 2, 1]])?;
//!
//! let plan = survey.plan(Kind::Balanced, 2)?;
//! assert_eq!(plan.sites, [1, 2]);
//! assert_eq!(plan.total, 7);
//! assert_eq!(plan.division.site(4), Some(2));
//!
//! // over three sites, the one that is chosen first serves one street more than the others
//! let plan = survey.plan(Kind::Balanced, 3)?;
//! assert_eq!(plan.sites, [1, 2, 3]);
//! assert_eq!(plan.division.as_bytes(), [1, 1, 2, 3]);
//!
//! // there are only three sites to choose from
//! let refusal = survey.plan(Kind::Balanced, 4).unwrap_err();
//! assert_eq!(refusal, Refusal::Chosen);
//! println!("refused {}: {refusal}", refusal.number());
//! # Ok(())
//! # }
//! ```
//!
//! # What there is
//! - [`Survey`] is the town, checked once when it is made, with weights if it has any ([`Survey::with_weights`]). It plans
//!   ([`Survey::plan`]), divides the streets over sites that are given ([`Survey::divide`]), totals a list of sites
//!   ([`Survey::list_total`]), says what a balanced plan reaches in any case ([`Survey::floor`]) and tests a plan that was made by hand
//!   ([`Survey::test`]), also with what the streets bring to their sites ([`Survey::test_with_loads`], [`Loads`]).
//! - [`SurveyFile`] is a survey with the kind of plan and the K that are wanted, as bytes that are read and written in one of two forms
//!   ([`Form`]), and converted from one into the other ([`SurveyFile::convert`]).
//! - [`Refusal`] is what is wrong with a call: its number, whose it is, and what to do.
//! - [`slices`] are the library's functions over slices that the caller lends, and [`raw`] the same as C sees them.
//!
//! Streets and sites are numbered from 1, and site 0 is no site.
//!
//! # Stack and threads
//! A balanced plan needs 286 KB of stack, a free one 60 KB, and any call that refuses 11 KB, which the main thread and the threads of
//! [`std::thread`] have; a thread that is made with less should have half a megabyte. No call keeps anything for the next: any number of
//! threads may call at once, and every type here can be sent to another thread and shared.
//!
//! # Linking
//! The archive `libplanner_c.a` is linked in; the README says where it comes from. Checking and documenting a program need no archive.
//! [`version`] is the archive's version, which has to be the crate's [`VERSION`]: the functions of another archive may be called otherwise,
//! and a refusal that the crate does not know is a panic.
mod hand_plan;
mod loads;
mod plan;
pub mod raw;
mod refusal;
pub mod slices;
mod survey;
mod survey_file;

pub use hand_plan::HandPlan;
pub use loads::Loads;
pub use plan::{Division, Kind, Plan, Sites};
pub use refusal::{Refusal, UnknownRefusal};
pub use survey::Survey;
pub use survey_file::{Form, SurveyFile};

/// The most streets that a survey has.
pub const MAX_STREETS: usize = 400;

/// The most sites that a survey has.
pub const MAX_SITES: usize = 64;

/// The highest score of a place.
pub const TOP_SCORE: u16 = 1_000;

/// The greatest household weight of a street; the smallest is 1.
pub const TOP_WEIGHT: u8 = 99;

/// The length of the scores that the reader of files is lent: those of the most sites.
pub const SCORES_LENGTH: usize = MAX_SITES;

/// The length of the weights that the reader of files is lent: those of the most streets.
pub const WEIGHTS_LENGTH: usize = MAX_STREETS;

/// The length of the rows that the reader of files is lent, in bytes: those of the most streets over the most sites.
pub const ROWS_LENGTH: usize = MAX_STREETS * MAX_SITES;

/// The length of the longest survey file, in bytes.
pub const FILE_LENGTH: usize = 28_141;

/// The crate's version: the year, and in two digits the number of the last change request that is in.
pub const VERSION: u32 = 202_606;

/// The version of the archive that is linked, which counts as [`VERSION`] does.
///
/// ```
/// assert_eq!(planner::version(), planner::VERSION);
/// ```
#[must_use]
pub fn version() -> u32 {
    raw::planner_version()
}

/// The README's example, run as a test.
#[cfg(doctest)]
#[doc = include_str!("../README.md")]
struct Readme;
