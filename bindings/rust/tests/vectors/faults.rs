//! What the runner has to find: blocks that no call is for, and memory that is not as it should be.
use crate::lent::Lent;
use crate::run;

const RIGHT: &str = "# a row\n\ncall ranked_part\nrow 3 1 0\n=> 0\nlength 2\n";

/// The lines of what is wrong, for the right text with one part of it changed.
fn changed(old: &str, new: &str) -> Vec<String> {
    assert_eq!(RIGHT.matches(old).count(), 1);
    run::every_block("here", &RIGHT.replace(old, new)).1
}

#[test]
fn wrong_blocks() {
    assert_eq!(run::every_block("here", RIGHT), (1, Vec::new()));
    assert_eq!(changed("ranked_part", "ranked"), ["here:3: no call `ranked` is known"]);
    assert_eq!(changed("call ", ""), ["here:3: a block starts with `call NAME`"]);
    assert_eq!(changed("=> 0\n", ""), ["here:3: no line `=> NUMBER`"]);
    assert_eq!(changed("=> 0", "=> none"), ["here:5: no number behind =>"]);
    assert_eq!(changed("row 3 1 0", "row 3 1 0\nm 3"), ["here:5: `ranked_part` has no line `m`, or has it twice"]);
    assert_eq!(changed("row 3 1 0", "row 3\nrow 3"), ["here:5: `ranked_part` has no line `row`, or has it twice"]);
    assert_eq!(changed("row 3 1 0\n", ""), ["here:3: `ranked_part` lacks its line `row`"]);
    assert_eq!(changed("length 2", "length 2\ntotal 2"), ["here:7: `ranked_part` has no line `total`, or has it twice"]);
    assert_eq!(changed("length 2\n", ""), ["here:3: `ranked_part` lacks its line `length`"]);
    assert_eq!(changed("length 2", "length 2 2"), ["here:6: `length` is one number and has 2"]);
    assert_eq!(changed("3 1 0", "3 -1 0"), ["here:4: `-1` is no value of `row`"]);
    assert_eq!(changed("3 1 0", "256 1 0"), ["here:4: 256 is too large for `row`"]);
    assert_eq!(run::every_block("here", "# nothing\n"), (0, vec!["here: no call in it".to_string()]));
}

#[test]
fn wrong_outcomes() {
    assert_eq!(changed("length 2", "length 3"), ["here:3: ranked_part answers 0 with 2, and 0 with 3 is due"]);
    assert_eq!(changed("=> 0\nlength 2", "=> 6"), ["here:3: ranked_part answers 0 with 2, and 6 with 0 is due"]);
    let division = "call free_division\nn 1\nm 1\nscores 7\nweights 1\nrows 1\nsites 1\ndivision-length 1\n=> 0\ntotal 7\ndivision ";
    assert_eq!(run::every_block("here", &format!("{division}1\n")), (1, Vec::new()));
    let wrong = ["here:1: `division` after free_division: its entry 1 is 1 and should be 0"];
    assert_eq!(run::every_block("here", &format!("{division}0\n")).1, wrong);
    assert_eq!(run::every_block("here", &format!("{division}1 1\n")).1, ["here:11: 2 values for the 1 entries of `division`"]);
}

#[test]
fn inputs_left_out() {
    let without = "call hand_plan\nn 1\nm 1\nk 1\nkind 1\nscores 7\nrows 1\ndivision 1\nclaimed 7\n=> 0\ntotal 7\n";
    let loaded = without.replace("=> 0", "kilograms 5\nlitres 6\nkilogram-limits 5\nlitre-limits 6\n=> 0");
    let with = loaded.replace("rows", "weights 1\nrows");
    for file in ["base.txt", "2026-01.txt"] {
        assert_eq!(run::every_block(file, without), (1, Vec::new()));
        let twice = format!("{file}:1: `hand_plan` has no line `kilograms`, or has it twice");
        assert_eq!(run::every_block(file, &loaded).1, [twice]);
    }
    for file in ["2026-02.txt", "2026-04-full.txt"] {
        assert_eq!(run::every_block(file, &loaded), (1, Vec::new()));
        assert_eq!(run::every_block(file, without).1, [format!("{file}:1: `hand_plan` lacks its line `kilograms`")]);
        let twice = format!("{file}:1: `hand_plan` has no line `weights`, or has it twice");
        assert_eq!(run::every_block(file, &with).1, [twice]);
    }
    for file in ["2026-05.txt", "2026-10.txt"] {
        assert_eq!(run::every_block(file, &with), (1, Vec::new()));
        assert_eq!(run::every_block(file, &loaded).1, [format!("{file}:1: `hand_plan` lacks its line `weights`")]);
    }
    let row = "call row_score\nm 1\nscores 7\nrow 1\nsite 1\n=> 0\ntotal 7\n";
    assert_eq!(run::every_block("2026-04.txt", row), (1, Vec::new()));
    assert_eq!(run::every_block("2026-05.txt", row).1, ["2026-05.txt:1: `row_score` lacks its line `weight`"]);
    let nine = row.replace("row 1", "row 1\nweight 9");
    assert_eq!(run::every_block("2026-05.txt", &nine).1, ["2026-05.txt:1: row_score answers 0 with 63, and 0 with 7 is due"]);
    // each of the four goes to the function as the buffer of its own name
    for (least, number) in [("kilogram-limits 5", 22), ("litre-limits 6", 23)] {
        let over = with.replace(least, &least.replace(['5', '6'], "4"));
        let wrong = format!("here:1: hand_plan answers {number} with 0, and 0 with 7 is due");
        assert_eq!(run::every_block("here", &over).1, [wrong]);
    }
    let longer = with.replace("litres 6", "litres 6 6");
    assert_eq!(run::every_block("here", &longer).1, ["here:1: hand_plan answers 6 with 0, and 0 with 7 is due"]);
}

/// One street and one site as a file, in the old form and in the new one with a weight of 9.
const OLD_FILE: &str = "file 54 4E 01 00 01 01 00 53 43 07 00 53 54 01 00 01 01 45 4E\n";
const NEW_FILE: &str = "file 54 57 01 00 01 01 00 53 43 07 00 48 57 09 53 54 01 00 01 01 45 4E\n";

#[test]
fn forms_left_out() {
    let read = format!("call read_file\n{OLD_FILE}rows-length 25600\nscores-length 64\n=> 0\nn 1\nm 1\nk 1\nkind 0\nrows 1\nscores 7\n");
    let write = format!("call write_file\nn 1\nm 1\nk 1\nkind 0\nscores 7\nrows 1\nfile-length 19\n=> 0\nlength 19\n{OLD_FILE}");
    let read_with = read.replace("=> 0", "weights-length 400\n=> 0") + "form 0\nweights 1\n";
    let write_with = write.replace("scores", "form 0\nweights 1\nscores");
    for file in ["base.txt", "2026-05.txt"] {
        assert_eq!(run::every_block(file, &format!("{read}\n{write}")), (2, Vec::new()));
        let twice = |call, key| vec![format!("{file}:1: `{call}` has no line `{key}`, or has it twice")];
        assert_eq!(run::every_block(file, &read_with).1, twice("read_file", "weights-length"));
        assert_eq!(run::every_block(file, &write_with).1, twice("write_file", "form"));
        let wrong = format!("{file}:1: `form` after read_file: its entry 1 is 1 and should be 0");
        assert_eq!(run::every_block(file, &read.replace(OLD_FILE, NEW_FILE)).1, [wrong]);
    }
    for file in ["2026-06.txt", "2026-06-full.txt", "2026-07.txt"] {
        assert_eq!(run::every_block(file, &format!("{read_with}\n{write_with}")), (2, Vec::new()));
        assert_eq!(run::every_block(file, &read).1, [format!("{file}:1: `read_file` lacks its line `weights-length`")]);
        assert_eq!(run::every_block(file, &write).1, [format!("{file}:1: `write_file` lacks its line `form`")]);
    }
}

/// The converter's file and its buffer have one key.
#[test]
fn a_file_read_and_a_file_written() {
    let convert = format!("call convert_file\n{NEW_FILE}form 1\nfile-length 23\n=> 0\nlength 22\n{NEW_FILE}");
    assert_eq!(run::every_block("here", &convert), (1, Vec::new()));
    let differs = convert.replace("length 22\nfile 54 57", "length 22\nfile 54 4E");
    assert_eq!(run::every_block("here", &differs).1, ["here:1: `file` after convert_file: its entry 2 is 87 and should be 78"]);
    let lost = convert.replace("form 1", "form 0");
    assert_eq!(run::every_block("here", &lost).1, ["here:1: convert_file answers 25 with 0, and 0 with 22 is due"]);
    let short = convert.replace("file-length 23", "file-length 21");
    assert_eq!(run::every_block("here", &short).1, ["here:7: 22 values for the 21 entries of `file`"]);
}

#[test]
fn writes_that_are_not_due() {
    for width in [1, 2, 4, 8] {
        let mut lent = Lent::holding(&[1, 2, 3], width, 0);
        assert_eq!(lent.difference(), None);
        for (at, found) in [(-1, "a byte before it was written"), (3 * width as isize, "a byte behind it was written")] {
            let byte = lent.first_byte().wrapping_offset(at);
            // SAFETY: the guards stand there.
            let flip = || unsafe { *byte ^= 1 };
            flip();
            assert_eq!(lent.difference().as_deref(), Some(found));
            flip();
        }
        lent.expect(&[1, 5]);
        assert_eq!(lent.difference().as_deref(), Some("its entry 2 is 2 and should be 5"));
    }
}
