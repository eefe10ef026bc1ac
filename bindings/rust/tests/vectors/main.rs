//! Every call of the files in bindings/vectors (its README has the format): the answer, and every byte that the call is lent.
mod blocks;
mod calls;
mod faults;
mod left_out;
mod lent;
mod run;

use std::fs;
use std::path::Path;

#[test]
fn every_call() {
    let folder = Path::new(env!("CARGO_MANIFEST_DIR")).join("../vectors");
    let mut files: Vec<_> = fs::read_dir(&folder).expect("the folder of vectors").map(|entry| entry.expect("its entries").path()).collect();
    files.retain(|path| path.extension().is_some_and(|ending| ending == "txt"));
    files.sort();
    assert!(!files.is_empty(), "{} has no vectors", folder.display());
    let (mut calls, mut faults) = (0, Vec::new());
    for path in files {
        let name = path.file_name().expect("a file's name").to_string_lossy().into_owned();
        let text = fs::read_to_string(&path).expect("a file of vectors");
        let (count, wrong) = run::every_block(&name, &text);
        println!("{name}: {count} calls");
        calls += count;
        faults.extend(wrong);
    }
    assert!(faults.is_empty(), "{} faults\n{}", faults.len(), faults.join("\n"));
    // bindings/test shows this number
    println!("vectors: {calls} calls");
}
