//! The calls that vectors name: what each is given, what it gives, and the archive's function for it. The functions are the raw ones, since
//! the safe ones take no kind but 0 and 1, and keep back a refused call's total and what it leaves in the five numbers that the reader is
//! lent.
use crate::lent::Lent;
use planner::raw::*;
use std::collections::BTreeMap;
use std::fmt::Debug;

/// A call with the keys of its inputs, of which a file of an earlier request leaves some out, and of the outputs that it has where it is
/// accepted.
pub struct Call {
    pub name: &'static str,
    pub inputs: &'static str,
    /// a buffer with `..` behind its key is filled in front and keeps the rest; any other is written whole
    pub outputs: &'static str,
    pub run: fn(&mut Given) -> u64,
}

/// Calls a function of the archive: numbers go as they are, a buffer as where it starts and its length, and more numbers, then more
/// buffers, then a number may follow.
macro_rules! pass {
    ($given:ident, $function:ident, $($number:ident)*; $($buffer:ident)*; $($last:ident)* $(; $($behind:ident)* $(; $end:ident)?)?) => {
        // SAFETY: each pointer stands beside the length of the memory that it starts, which is this buffer's alone.
        unsafe {
            $function(
                $($given.number(stringify!($number)),)*
                $($given.start(stringify!($buffer)), $given.length(stringify!($buffer)),)*
                $($given.number(stringify!($last)),)*
                $($($given.start(stringify!($behind)), $given.length(stringify!($behind)),)* $($given.number(stringify!($end)),)?)?
            )
        }
    };
}

#[rustfmt::skip]
pub const CALLS: [Call; 12] = [
    Call { name: "check_survey", inputs: "n m k scores weights rows", outputs: "",
           run: |given| pass!(given, planner_check_survey, n m k; scores weights rows;) },
    Call { name: "ranked_part", inputs: "row", outputs: "length",
           run: |given| pass!(given, planner_ranked_part, ; row;) as u64 },
    Call { name: "row_score", inputs: "m scores weight row site", outputs: "total",
           run: |given| pass!(given, planner_row_score, m; scores; weight; row; site) },
    Call { name: "list_total", inputs: "n m scores weights rows sites", outputs: "total",
           run: |given| pass!(given, planner_list_total, n m; scores weights rows sites;) },
    Call { name: "free_division", inputs: "n m scores weights rows sites division-length", outputs: "total division",
           run: |given| pass!(given, planner_free_division, n m; scores weights rows sites division;) },
    Call { name: "balanced_division", inputs: "n m scores weights rows sites division-length", outputs: "total division",
           run: |given| pass!(given, planner_balanced_division, n m; scores weights rows sites division;) },
    Call { name: "plan", inputs: "n m k kind scores weights rows division-length chosen-length", outputs: "total chosen division",
           run: |given| pass!(given, planner_plan, n m k kind; scores weights rows division chosen;) },
    Call { name: "floor", inputs: "n m k scores weights rows", outputs: "total",
           run: |given| pass!(given, planner_floor, n m k; scores weights rows;) },
    Call { name: "hand_plan", inputs: "n m k kind scores weights rows division claimed kilograms litres kilogram-limits litre-limits", outputs: "total",
           run: |given| pass!(given, planner_hand_plan, n m k kind; scores weights rows division; claimed;
                              kilograms litres kilogram_limits litre_limits) },
    Call { name: "read_file", inputs: "file rows-length scores-length weights-length", outputs: "n m k kind form rows.. scores.. weights..",
           run: read_file },
    Call { name: "write_file", inputs: "n m k kind form scores weights rows file-length", outputs: "length file..",
           run: |given| pass!(given, planner_write_file, n m k kind form; scores weights rows file;) },
    Call { name: "convert_file", inputs: "file form file-length", outputs: "length file..",
           run: |given| pass!(given, planner_convert_file, ; given_file; form; file) },
];

/// The reader, which is lent its five numbers too.
fn read_file(given: &mut Given) -> u64 {
    // SAFETY: each pointer to a buffer stands beside the length of the memory that it starts, and each of the five numbers has memory of
    // its own.
    unsafe {
        planner_read_file(
            given.start("file"),
            given.length("file"),
            given.start("n"),
            given.start("m"),
            given.start("k"),
            given.start("kind"),
            given.start("form"),
            given.start("scores"),
            given.length("scores"),
            given.start("weights"),
            given.length("weights"),
            given.start("rows"),
            given.length("rows"),
        )
    }
}

/// The keys that stand for one number; every other key stands for a buffer.
pub const NUMBERS: [&str; 8] = ["n", "m", "k", "kind", "form", "weight", "site", "claimed"];

/// The bytes of a number, or of an entry of a buffer.
pub fn width(key: &str) -> usize {
    match key {
        "n" | "m" | "k" | "kind" | "form" => 8,
        "claimed" | "kilograms" | "litres" | "kilogram-limits" | "litre-limits" => 4,
        "scores" => 2,
        _ => 1,
    }
}

/// What a call is given, by key: numbers, and memory that is lent.
pub struct Given {
    pub numbers: BTreeMap<String, u64>,
    pub lent: BTreeMap<String, Lent>,
}

impl Given {
    fn number<T: TryFrom<u64, Error: Debug>>(&self, key: &str) -> T {
        self.numbers[key].try_into().expect("a number that fits, as was tried when it was read")
    }

    /// Where a buffer starts, by its parameter's name, in which an underscore stands for the key's hyphen.
    fn start<T>(&mut self, name: &str) -> *mut T {
        self.lent.get_mut(&name.replace('_', "-")).expect("a buffer of the table").start()
    }

    fn length(&self, name: &str) -> usize {
        self.lent[&name.replace('_', "-")].length()
    }
}
