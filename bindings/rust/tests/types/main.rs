//! The crate's types on worked surveys and drawn towns, against the functions over slices beneath them.
mod conversions;
mod divisions;
mod drawn;
mod files;
mod loads;
mod refusals;
mod surveys;
mod threads;
mod worked;

// towns and loads are drawn as for the plain implementation, of which nothing else is used here
#[path = "../against_plain/drawn_loads.rs"]
mod drawn_loads;
#[path = "../against_plain/plain/loads.rs"]
mod plain_loads;
#[path = "../against_plain/random.rs"]
mod random;
#[allow(dead_code)]
#[path = "../against_plain/plain/survey.rs"]
mod survey;
#[path = "../against_plain/towns.rs"]
mod towns;

mod plain {
    pub(crate) use crate::plain_loads as loads;
    pub(crate) use crate::survey;
}

/// How many numbers a call can give back, 0 among them.
const NUMBERS: usize = planner::Refusal::ALL.len() + 1;
