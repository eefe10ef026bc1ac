//! Finds the archive that `bindings/archive` wrote: in the folder that PLANNER_C_DIR names, else in this repository's target/.
use std::env;
use std::path::{Path, PathBuf};

fn main() {
    let folder = match env::var_os("PLANNER_C_DIR") {
        Some(named) => PathBuf::from(named),
        None => repository().join("target/staticlib"),
    };
    let archive = folder.join("libplanner_c.a");
    // a newly proved archive is linked again
    println!("cargo:rerun-if-changed={}", archive.display());
    println!("cargo:rerun-if-env-changed=PLANNER_C_DIR");
    match archive.canonicalize() {
        Ok(found) if found.is_file() => {
            println!("cargo:rustc-link-search=native={}", found.parent().expect("a file is in a folder").display());
            println!("cargo:rustc-link-lib=static=planner_c");
        }
        _ => println!("cargo:rustc-link-lib=static={}", missing(&folder)),
    }
}

/// The folder two above the crate's own.
fn repository() -> PathBuf {
    let own = PathBuf::from(env::var_os("CARGO_MANIFEST_DIR").expect("cargo names the crate's folder"));
    own.ancestors().nth(2).unwrap_or(&own).to_path_buf()
}

/// A library of this name is what rustc cannot find, so that its own error says what to do, and says it only where the archive is needed:
/// checking and documenting need none.
fn missing(folder: &Path) -> String {
    // behind a colon rustc reads another name
    let folder = folder.display().to_string().replace(':', "?");
    format!(
        "planner_c (there is no libplanner_c.a in {folder}; run `bindings/archive` at the root of the planner's repository, \
         or let PLANNER_C_DIR name the folder that has it, by its whole path)"
    )
}
