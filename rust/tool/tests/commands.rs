//! The commands, run as a person would.

mod common;

use common::{bash, fails, file, five, lineage, out, place, tree};
use std::os::unix::ffi::OsStringExt;
use std::process::Command;

const FRESH: &str = "lineage sheet: rule steep, lots 5, frame 3 6\nlot times x y held\n\
                     0 1 0 0 0\n1 1 1 3 0\n2 1 1 4 0\n3 1 2 4 0\n4 1 2 5 0\n";
const STRETCHED: &str = "lineage sheet: rule steep, lots 5, frame 5 12\nlot times x y held\n\
                         0 1 0 0 0\n1 3 3 9 0\n2 1 1 4 0\n3 1 4 10 0\n4 1 4 11 0\n";

#[test]
fn sheets() {
    let tree = five("sheets.tree");
    assert_eq!(out(&["sheet", &tree]), FRESH);
    assert_eq!(out(&["sheet", &tree, "--lengthen", "1:2"]), STRETCHED);
    assert_eq!(out(&["sheet", &tree, "--lengthen", "1:2", "--shorten=1:2"]), FRESH);
    let (status, message) = fails(&["sheet", &tree, "--lengthen", "1:2", "--shorten", "1:3"]);
    assert_eq!(status, 1);
    assert!(message.contains("sheets.tree: --shorten 1:3: shorten refused (12) at lot 1: the count"), "{message}");
}

/// Lengthens that stand together are made in one call; which option was refused is told in any case.
#[test]
fn lists_of_lengthens() {
    let tree = five("lengthens.tree");
    assert_eq!(out(&["sheet", &tree, "--lengthen=1:1", "--lengthen", "1:0", "--lengthen=1:1"]), STRETCHED);
    assert_eq!(out(&["sheet", &tree, "--lengthen=1:1", "--hold=2", "--free=2", "--lengthen=1:1"]), STRETCHED);
    let fails_with = |words: &[&str], said: &str| {
        let (status, message) = fails(&[&["sheet", &tree], words].concat());
        assert!(status == 1 && message.contains(&format!("lengthens.tree: {said}")), "{words:?}: {message}");
    };
    fails_with(&["--lengthen", "0:1"], "--lengthen 0:1: lengthen refused (10): the root has no edge");
    fails_with(
        &["--lengthen=1:2", "--lengthen=0:1", "--lengthen=9:1"],
        "--lengthen 0:1 (2 of 3): lengthen refused (10)",
    );
    let apart = ["--lengthen", "1:2", "--hold", "3", "--lengthen", "2:1", "--lengthen", "3:01"];
    fails_with(&apart, "--lengthen 3:01 (3 of 3): lengthen refused (22) at lot 3: the lot's line is held");
    fails_with(
        &["--hold=3", "--lengthen=1:2", "--hold=9"],
        "--hold 9 (2 of 2): hold refused (9): there is no such lot",
    );
    // a wrong value is told before any call is made
    let (status, message) = fails(&["sheet", &tree, "--lengthen", "0:1", "--lengthen", "1"]);
    assert!(status == 2 && message.contains("--lengthen: '1' is not two numbers"), "{message}");
}

#[test]
fn held_lines() {
    let tree = five("held.tree");
    let fails_with = |words: &[&str], said: &str| {
        let (status, message) = fails(&[&["sheet", &tree], words].concat());
        assert!(status == 1 && message.contains("held.tree") && message.contains(said), "{words:?}: {message}");
    };
    fails_with(&["--hold", "1", "--lengthen", "1:0"], "--lengthen 1:0: lengthen refused (22) at lot 1:");
    fails_with(&["--lengthen", "1:2", "--hold=1", "--shorten=1:1"], "shorten refused (22) at lot 1: the lot's line");
    fails_with(&["--hold", "1", "--free", "1", "--hold", "1", "--lengthen", "1:2"], "(22)");
    fails_with(&["--hold", "0"], "held.tree: --hold 0: hold refused (10): the root has no edge");
    fails_with(&["--free", "5"], "held.tree: --free 5: hold refused (9): there is no such lot");
    // in the order that they are given in, whatever their kind
    assert_eq!(out(&["sheet", &tree, "--hold", "1", "--free", "1", "--lengthen", "1:2"]), STRETCHED);
    let held = out(&["sheet", &tree, "--hold=3", "--lengthen=1:2", "--hold=4", "--free=4"]);
    assert!(held != STRETCHED && held.lines().nth(5).unwrap().starts_with("3 1 4 10"), "{held}");
    assert_eq!(out(&["check", &tree, "--hold=3", "--lengthen=1:2"]), "Monotone\n");
}

#[test]
fn columns() {
    let tree = five("columns.tree");
    let sheet = |words: &[&str]| out(&[&["sheet", &tree], words].concat());
    assert_eq!(sheet(&["--column", "1:3"]), STRETCHED);
    // where it stands already, nothing changes
    assert_eq!(sheet(&["--column=1:1", "--column=2:1", "--column=4:2"]), FRESH);
    // in the order that they are given in, whatever their kind
    assert_eq!(sheet(&["--lengthen=1:1", "--column=1:3"]), STRETCHED);
    assert_eq!(sheet(&["--lengthen=1:2", "--shorten=1:2", "--column=1:2", "--lengthen=1:1"]), STRETCHED);
    assert_eq!(sheet(&["--column=1:5", "--shorten=1:2"]), STRETCHED);
    assert_eq!(sheet(&["--hold=1", "--free=1", "--column=1:3", "--hold=1", "--free=1"]), STRETCHED);
    assert!(sheet(&["--hold=3", "--column=1:3"]).contains("\n1 3 3 9 0\n2 1 1 4 0\n3 1 4 10 1\n"));
    assert!(sheet(&["--column=1:2", "--column=3:4"]).contains("\n1 2 2 6 0\n2 1 1 4 0\n3 2 4 8 0\n"));
    assert!(sheet(&["--column=3:4", "--column=1:2"]).contains("\n1 2 2 6 0\n2 1 1 4 0\n3 3 5 9 0\n"));
    // at the edge of both cabinets
    assert!(sheet(&["--column=3:2147483645"]).contains("\n3 2147483644 2147483645 2147483647 0\n"));
    assert!(sheet(&["--small", "--column=3:1048573"]).contains("\n3 1048572 1048573 1048575 0\n"));
    assert_eq!(out(&["draw", &tree, "--column=1:3"]), out(&["draw", &tree, "--lengthen=1:2"]));
    assert_eq!(out(&["check", &tree, "--column=1:3"]), "Monotone\n");
}

/// Where no count brings a lot to a column, the message says why.
#[test]
fn columns_that_a_lot_does_not_come_to() {
    let tree = five("no-columns.tree");
    let fails_with = |words: &[&str], said: &str| {
        let right = (1, format!("lineage: {tree}: --column {said}\n"));
        assert_eq!(fails(&[&["sheet", &tree], words].concat()), right, "{words:?}");
    };
    fails_with(&["--column=0:0"], "0:0: column refused (10): the root has no edge");
    fails_with(&["--column=5:9"], "5:9: column refused (9): there is no such lot");
    fails_with(&["--small", "--column=5:9"], "5:9: column refused (9): there is no such lot");

    let held = "the line of lot 1 is held; --free 1 frees it";
    fails_with(&["--hold=1", "--column=1:3"], &format!("1:3: {held}"));
    fails_with(&["--hold=1", "--column=1:1"], &format!("1:1: {held}"));
    fails_with(&["--hold=1", "--column=1:0"], &format!("1:0: {held}"));
    fails_with(&["--hold=1", "--small", "--column=1:4294967295"], &format!("1:4294967295: {held}"));

    fails_with(&["--column=1:0"], "1:0: lot 1 stands at x 1, right of that column; only --shorten goes left");
    let again = ["--column=1:4", "--column=1:3", "--column=9:9"];
    fails_with(&again, "1:3 (2 of 3): lot 1 stands at x 4, right of that column; only --shorten goes left");

    let past = |words: &[&str], said: &str| {
        fails_with(&[&["--rule=balanced"], words].concat(), &format!("{said}, past that column"))
    };
    past(&["--column=1:5"], "1:5: lot 1 stands at x 3 and goes 3 across at a time: from 3 to 6");
    let longer = ["--lengthen=1:1", "--column=1:010"];
    past(&longer, "1:010: lot 1 stands at x 6 and goes 3 across at a time: from 9 to 12");
    let far = "4:4294967295: lot 4 stands at x 8 and goes 2 across at a time: from 4294967294 to 4294967296";
    past(&["--lengthen=1:1", "--column=4:4294967295"], far);

    // lot 1 goes 1 across and 3 up, and lot 4 is 2 above it
    fails_with(&["--column=1:715827882"], "1:715827882: the place of a lot below lot 1 would be above 2,147,483,647");
    fails_with(&["--column=1:715827883"], "1:715827883: the place of lot 1 would be above 2,147,483,647");
    fails_with(&["--column=1:4294967295"], "1:4294967295: the place of lot 1 would be above 2,147,483,647");
    let small = |column: &str, whose: &str| {
        let said = format!("{column}: the place of {whose} would be above 1,048,575");
        fails_with(&["--small", "--column", column], &said);
        out(&["sheet", &tree, "--column", column]);
    };
    small("1:349525", "a lot below lot 1");
    small("1:349526", "lot 1");
    small("3:1048576", "lot 3");

    // a wrong value is told before any call is made
    let told = |value: &str| fails(&["sheet", &tree, "--column=0:0", "--column", value]);
    assert_eq!(told("x"), (2, "lineage: --column: 'x' is not two numbers with ':' between\n".to_string()));
    assert_eq!(
        told("1:2:3"),
        (2, "lineage: --column: '2:3' is not a whole number below 4,294,967,296\n".to_string())
    );
    assert_eq!(told("1:x"), (2, "lineage: --column: 'x' is not a whole number below 4,294,967,296\n".to_string()));
    let beside = "lineage: --column would mean nothing beside --places\n".to_string();
    assert_eq!(fails(&["check", &tree, "--places", &tree, "--column=1:3"]), (2, beside));
}

#[test]
fn saved_sheets_are_taken_up_again() {
    let (tree, saved) = (five("saved.tree"), place("saved.sheet"));
    out(&["sheet", &tree, "--lengthen", "1:2", "-o", &saved]);
    assert_eq!(out(&["sheet", &tree, "--sheet", &saved]), STRETCHED);
    assert_eq!(out(&["sheet", &tree, "--sheet", &saved, "--shorten", "1:2"]), FRESH);
    assert_eq!(out(&["check", &tree, "--sheet", &saved]), "Monotone\n");
    let svg = out(&["draw", &tree, "--sheet", &saved]);
    assert!(svg.contains("<title>lot 4, parent 1, at (4, 11)</title>"));
    let says = |name: &str, text: &str| fails(&["check", &tree, "--sheet", &file(name, text.as_bytes())]);
    let (status, message) = says("broken.sheet", &STRETCHED.replace("3 1 4 10", "3 1 4 9"));
    assert!(status == 1 && message.contains("broken.sheet: the sheet refused (8) at lot 3: the lists"), "{message}");
    let (status, message) = says("held.sheet", &STRETCHED.replace("2 1 1 4 0", "2 1 1 4 2"));
    assert!(status == 1 && message.contains("held.sheet") && message.contains("(8) at lot 2"), "{message}");
    let (status, message) =
        says("other.sheet", "lineage sheet: rule steep, lots 1, frame 1 1\nlot times x y held\n0 1 0 0 0\n");
    assert!(status == 1 && message.contains("(3)"), "{message}");
    let (status, message) = says("damaged.sheet", &STRETCHED.replace("3 1 4 10", "3 1 four 10"));
    assert!(status == 2 && message.contains("damaged.sheet:6:5: x is expected"), "{message}");
    let (status, message) = says("frame.sheet", &STRETCHED.replace("frame 5 12", "frame 4 11"));
    assert!(status == 2 && message.contains("frame.sheet:1: the frame is 5 12, in grid cells"), "{message}");
    assert!(says("no.sheet", "a\n").1.contains("no.sheet: is not a sheet file"));
    let (status, message) = fails(&["check", &saved]);
    assert!(status == 2 && message.contains("is a sheet file: name its tree here"), "{message}");
}

/// On the small cabinet sheets are the same, up to its limits.
#[test]
fn the_small_cabinet() {
    let (tree, saved) = (five("small.tree"), place("small.sheet"));
    assert_eq!(out(&["sheet", &tree, "--small"]), FRESH);
    assert_eq!(out(&["sheet", &tree, "--small", "--lengthen", "1:2", "-o", &saved]), "");
    assert_eq!(out(&["sheet", &tree, "--sheet", &saved]), STRETCHED);
    assert_eq!(out(&["sheet", &tree, "--sheet", &saved, "--small", "--shorten", "1:2"]), FRESH);
    assert_eq!(out(&["check", &tree, "--small", "--hold=3", "--lengthen=1:2"]), "Monotone\n");
    assert_eq!(out(&["draw", &tree, "--small"]), out(&["draw", &tree]));

    let (status, message) = fails(&["sheet", &tree, "--small", "--lengthen=2:1", "--lengthen=1:500000"]);
    let right = "small.tree: --lengthen 1:500000 (2 of 2): lengthen refused (21) at lot 1: some place would be above";
    assert!(status == 1 && message.contains(right), "{message}");
    out(&["sheet", &tree, "--lengthen", "1:500000", "-o", &saved]);
    assert_eq!(out(&["check", &tree, "--sheet", &saved]), "Monotone\n");
    let (status, message) = fails(&["check", &tree, "--sheet", &saved, "--small"]);
    assert!(status == 1 && message.contains("small.sheet: the sheet refused (8) at lot 1"), "{message}");

    for (lots, name) in [(1024, "village.tree"), (1025, "town.tree")] {
        let tree = common::tree(name, &vec![0; lots]);
        assert!(
            out(&["sheet", &tree]).starts_with(&format!("lineage sheet: rule steep, lots {lots}, frame 2 {lots}\n"))
        );
        if lots == 1024 {
            assert_eq!(out(&["sheet", &tree, "--small"]), out(&["sheet", &tree]));
        } else {
            let (status, message) = fails(&["sheet", &tree, "--small"]);
            let right = "town.tree: layout refused (20): there are more than 1,024 lots";
            assert!(status == 1 && message.contains(right), "{message}");
        }
    }
}

/// A sheet file as versions before 0.5 wrote it has no held lines, and gets its column when it is saved again.
#[test]
fn sheets_saved_before_lines_were_held() {
    let tree = five("earlier.tree");
    let text = STRETCHED.replace(" held\n", "\n").replace(" 0\n", "\n").replace("0 1 0\n", "0 1 0 0\n");
    assert!(text.ends_with("lot times x y\n0 1 0 0\n1 3 3 9\n2 1 1 4\n3 1 4 10\n4 1 4 11\n"), "{text}");
    let saved = file("earlier.sheet", text.as_bytes());
    assert_eq!(out(&["sheet", &tree, "--sheet", &saved]), STRETCHED);
    assert_eq!(out(&["sheet", &tree, "--sheet", &saved, "--shorten", "1:2"]), FRESH);
}

#[test]
fn directions_and_checks() {
    let tree = five("directions.tree");
    assert_eq!(out(&["direction", &tree, "3", "2"]), "-7 2\n");
    assert_eq!(out(&["direction", &tree, "3", "3"]), "1 1\n");
    assert_eq!(fails(&["direction", &tree, "5", "5"]).0, 1);
    assert!(fails(&["direction", &tree, "3", "x"]).1.contains("TO: 'x' is not a whole number"));
    assert_eq!(out(&["check", &tree, "--rule", "balanced"]), "Monotone\n");
    let square = file("square.txt", b"0 0\n0 1\n5 5\n0 0\n1 1\n");
    let turns = lineage(&["check", &tree, "--places", &square]);
    assert_eq!((turns.status.code(), &turns.stdout[..]), (Some(1), &b"Turns 0 3\n"[..]));
    let wrong = file("places.txt", b"0 0\n\n0 one\n");
    let (status, message) = fails(&["check", &tree, "--places", &wrong]);
    assert!(status == 2 && message.contains("places.txt:3:3: y is expected"), "{message}");
}

#[test]
fn post_numbers() {
    let (tree, saved) = (five("post-numbers.tree"), place("post-numbers.txt"));
    assert_eq!(out(&["numbers", &tree]), "0 1 5\n1 1 3\n2 4 4\n3 1 1\n4 2 2\n");
    assert_eq!(out(&["numbers", &tree, "-o", &saved]), "");
    assert_eq!(std::fs::read_to_string(&saved).unwrap(), out(&["numbers", &tree]));
    assert_eq!(out(&["numbers", &file("one.txt", b"a\n")]), "0 1 1\n");
    let doubled = file("doubled.tree", &[2u32, 0, 0, 0, 1].map(u32::to_le_bytes).concat());
    let (status, message) = fails(&["numbers", &doubled]);
    assert!(status == 1 && message.contains("doubled.tree") && message.contains("(6) at lot 1"), "{message}");
}

#[test]
fn the_tallest_sheet() {
    let tree = place("tallest.tree");
    for (n, height) in [(1, 1), (2, 2), (5, 11), (65_536, 2_147_450_881u32)] {
        let (frame, word) = (format!("{n} {height}\n"), n.to_string());
        assert_eq!(out(&["tallest", &word]), frame);
        assert_eq!(out(&["tallest", &word, "-o", &tree]), frame);
        assert_eq!(std::fs::read(&tree).unwrap(), lineage::Tree::tallest(n).unwrap().0.to_bytes());
        let first = format!("lineage sheet: rule steep, lots {n}, frame {frame}");
        assert!(out(&["sheet", &tree]).starts_with(&first));
    }
    assert_eq!(out(&["tallest", "-o", &tree, "--", "3"]), "3 4\n");
    assert_eq!(out(&["outline", "--back", &tree]), "[0]\n  [1]\n    [2]\n");
}

#[test]
fn the_tallest_sheet_is_refused() {
    let tree = file("tallest-refused.tree", b"as it was");
    let refused = |n: &str, said: &str| {
        let right = (1, format!("lineage: {n} lots: tallest refused {said}\n"));
        assert_eq!(fails(&["tallest", n]), right);
        assert_eq!(fails(&["tallest", n, "-o", &tree]), right);
    };
    refused("0", "(1): there are no lots");
    refused("65537", "(2): there are more than 65,536 lots");
    refused("4294967295", "(2): there are more than 65,536 lots");
    assert_eq!(std::fs::read(&tree).unwrap(), b"as it was");

    let misused = |words: &[&str], said: &str| {
        assert_eq!(fails(&[&["tallest"], words].concat()), (2, format!("lineage: {said}\n")));
    };
    misused(&["4294967296"], "N: '4294967296' is not a whole number below 4,294,967,296");
    misused(&["five"], "N: 'five' is not a whole number below 4,294,967,296");
    // the frame is printed there, and a tree file is no text; told before any call is made
    let to_the_output = "-o: standard output has the frame, so the tree file needs a name";
    misused(&["5", "-o", "-"], to_the_output);
    misused(&["0", "-o-"], to_the_output);
}

/// The names of a tree that stood in the file before are not read as those of the tallest one.
#[test]
fn the_tallest_sheet_has_no_names() {
    let (outline, tree) = (file("named.txt", b"a\n  b\n    c\n"), place("named.tree"));
    out(&["outline", &outline, "-o", &tree]);
    assert!(out(&["sheet", &tree]).contains("\n0 1 0 0 0 a\n"));
    // where it is refused they stay
    fails(&["tallest", "0", "-o", &tree]);
    assert!(out(&["sheet", &tree]).contains("\n0 1 0 0 0 a\n"));
    assert_eq!(out(&["tallest", "3", "-o", &tree]), "3 4\n");
    let unnamed =
        "lineage sheet: rule steep, lots 3, frame 3 4\nlot times x y held\n0 1 0 0 0\n1 1 1 2 0\n2 1 2 3 0\n";
    assert_eq!(out(&["sheet", &tree]), unnamed);

    // names that cannot be removed are told, and no frame is printed
    let kept = place("names-kept.tree");
    std::fs::create_dir_all(format!("{kept}.names")).unwrap();
    let (status, message) = fails(&["tallest", "3", "-o", &kept]);
    assert!(status == 2 && message.starts_with(&format!("lineage: {kept}.names: ")), "{message}");
}

#[test]
fn outlines_keep_names_and_numbers() {
    let outline = file("outline.txt", b"a\n  b\n    c\n    d\n  e\n");
    let tree = place("outline.tree");
    out(&["outline", &outline, "-o", &tree]);
    assert_eq!(std::fs::read_to_string(format!("{tree}.names")).unwrap(), "a\nb\nc\nd\ne\n");
    let back = out(&["outline", "--back", &tree]);
    assert_eq!(back, "[0] a\n  [1] b\n    [2] c\n    [3] d\n  [4] e\n");
    assert!(out(&["sheet", &tree]).contains("lot times x y held name\n0 1 0 0 0 a\n"));
    assert!(out(&["draw", &tree]).contains("<title>lot 4, e, parent 0,"));
    // numbers that are not in the order of the lines
    let five = five("numbers.tree");
    let (text, again) = (place("numbers.txt"), place("numbers-again.tree"));
    out(&["outline", "--back", &five, "-o", &text]);
    out(&["outline", &text, "-o", &again]);
    assert_eq!(std::fs::read(&five).unwrap(), std::fs::read(&again).unwrap());
    // to a pipe the names cannot follow
    let lost = lineage(&["outline", &outline]);
    assert!(lost.status.success() && String::from_utf8_lossy(&lost.stderr).contains("5 names are not kept"));
    std::fs::write(format!("{five}.names"), "a\nb\n").unwrap();
    let (status, message) = fails(&["draw", &five]);
    assert!(status == 2 && message.contains("has 2 names, and the tree beside it 5 lots"), "{message}");
    std::fs::remove_file(format!("{five}.names")).unwrap();
}

#[test]
fn a_chain_of_all_lots_goes_back_and_forth() {
    let chain = tree("chain.tree", &(0..65536u32).map(|v| v.saturating_sub(1)).collect::<Vec<_>>());
    let (text, again) = (place("chain.txt"), place("chain-again.tree"));
    out(&["outline", "--back", &chain, "-o", &text]);
    assert!(std::fs::metadata(&text).unwrap().len() < 2_000_000);
    out(&["outline", &text, "-o", &again]);
    assert_eq!(std::fs::read(&chain).unwrap(), std::fs::read(&again).unwrap());
}

#[test]
fn files_of_the_wrong_kind_are_told() {
    let (five, outline) = (five("kinds.tree"), file("kinds.txt", b"a\n  b\n"));
    assert!(fails(&["outline", &five]).1.contains("kinds.tree: is a tree file, not an outline"));
    assert!(fails(&["outline", "--back", &outline]).1.contains("kinds.txt: is text already, not a tree file"));
    for command in ["draw", "sheet", "check", "numbers"] {
        out(&[command, &outline]);
    }
    assert_eq!(out(&["direction", &outline, "0", "1"]), "1 1\n");
    let latin = file("kinds-latin.txt", b"Gr\xf6\xdfe\n");
    for words in [&["draw", &latin][..], &["outline", &latin], &["outline", "--back", &latin]] {
        assert!(fails(words).1.contains("is neither a tree file nor text"));
    }
    let two_roots = file("two-roots.txt", b"a\nb\n");
    let (status, message) = fails(&["outline", &two_roots]);
    assert!(status == 2 && message.contains("two-roots.txt:2:1:"), "{message}");
    let short = file("short.tree", b"\x05\0\0\0");
    let (status, message) = fails(&["draw", &short]);
    assert!(status == 1 && message.contains("short.tree") && message.contains("(17)"), "{message}");
    let folder = env!("CARGO_TARGET_TMPDIR");
    let (status, message) = fails(&["draw", folder]);
    assert!(status == 2 && message.contains("directory"), "{message}");
}

#[test]
fn drawings() {
    let tree = five("drawings.tree");
    let svg = out(&["draw", &tree, "--path", "3:2"]);
    assert!(svg.starts_with("<svg") && svg.ends_with("</svg>\n"));
    assert_eq!(svg.matches("<line").count(), 4);
    assert_eq!(svg.matches("<circle").count(), 5);
    assert!(svg.contains("rises along (-7, 2)"));
    let (status, message) = fails(&["draw", &tree, "--path", "5:5"]);
    assert!(status == 1 && message.contains("lots 5 and 5") && message.contains("(9)"), "{message}");
}

#[test]
fn windows() {
    let tree = five("windows.tree");
    let caption = |words: &[&str]| {
        let svg = out(&[&["draw", &tree, "--to-scale"], words].concat());
        svg.lines().nth(1).unwrap().replace("<title>", "").replace("</title>", "")
    };
    assert_eq!(caption(&["--window", "1,3,1"]), "3 of 5 lots, steep: the window at (1, 3) of side 2");
    assert_eq!(caption(&["--window=0,0,3"]), "5 lots, steep: the window at (0, 0) of side 8");
    assert_eq!(caption(&["--window=4,4,2"]), "0 of 5 lots, steep: the window at (4, 4) of side 4");
    // beside --root and --depth the window shows what it shows of that part
    let part = "2 of 5 lots, from lot 1 on, steep: the window at (1, 3) of side 2";
    assert_eq!(caption(&["--root=1", "--window=1,3,1"]), part);
    assert_eq!(caption(&["--root=1", "--depth=0", "--window=1,3,1"]), part.replace("2 of", "1 of"));
    assert_eq!(
        caption(&["--depth=1", "--window=1,3,1"]),
        "2 of 5 lots, from lot 0 on, steep: the window at (1, 3) of side 2"
    );

    let told = |words: &[&str]| fails(&[&["draw", &tree], words].concat());
    let refused = "--window 4,4,32: window refused (18): the window's exponent is above 31";
    assert_eq!(told(&["--window", "4,4,32"]), (1, format!("lineage: {tree}: {refused}\n")));
    assert_eq!(told(&["--window=4,4,4294967295"]).0, 1);
    let absent = |lot: &str, why: &str| (2, format!("lineage: {tree}: lot {lot} is not drawn: it is not in {why}\n"));
    assert_eq!(told(&["--window=1,3,1", "--mark=4"]), absent("4", "the window"));
    assert_eq!(told(&["--window=1,3,1", "--path=3:4"]), absent("4", "the window"));
    assert_eq!(told(&["--window=1,3,1", "--path=0:0"]), absent("0", "the window"));
    assert_eq!(told(&["--window=1,3,1", "--root=1", "--mark=4"]), absent("4", "the window"));
    assert_eq!(told(&["--window=1,3,1", "--root=1", "--mark=2"]), absent("2", "the part below lot 1"));

    let wrong = |word: &str, said: &str| {
        assert_eq!(told(&["--window", word]), (2, format!("lineage: --window: {said}\n")));
    };
    for word in ["4,4", "4,4,4,4", "4:4:4", ""] {
        wrong(word, &format!("'{word}' is not three numbers with ',' between"));
    }
    for (word, part) in [("4,4,x", "x"), ("4294967296,0,1", "4294967296"), ("4,-4,1", "-4"), ("4,,1", "")] {
        wrong(word, &format!("'{part}' is not a whole number below 4,294,967,296"));
    }
    assert_eq!(told(&["--window=1,3,1", "--window=1,3,1"]).0, 2);
}

#[test]
fn names_of_files_may_be_any_bytes() {
    let name = std::ffi::OsString::from_vec([place("").as_bytes(), b"odd-\xff.tree"].concat());
    std::fs::copy(five("odd.tree"), &name).unwrap();
    let done = Command::new(env!("CARGO_BIN_EXE_lineage")).arg("sheet").arg(&name).output().unwrap();
    assert_eq!(String::from_utf8(done.stdout).unwrap(), FRESH);
    let mut absent = name.clone();
    absent.push("x");
    let done = Command::new(env!("CARGO_BIN_EXE_lineage")).arg("draw").arg(&absent).output().unwrap();
    assert_eq!(done.status.code(), Some(2));
}

#[test]
fn nothing_is_lost_silently() {
    let (tree, outline) = (five("lost.tree"), file("lost.txt", b"a\n"));
    let large = common::tree("lost-large.tree", &[0; 5000]);
    for line in [
        format!("sheet {tree}"),
        format!("draw {tree}"),
        format!("outline {outline}"),
        "tallest 5".to_string(),
        "--help".to_string(),
    ] {
        let (status, _, said) = bash(&format!("$lineage {line} >/dev/full"));
        assert!(status == 2 && said.contains("standard output: No space left on device"), "{line}: {said}");
        let (status, _, said) = bash(&format!("$lineage {line} >&-"));
        assert!(status == 2 && said.contains("standard output: Bad file descriptor"), "{line}: {said}");
    }
    let (status, _, said) = bash(&format!("$lineage draw {tree} -o /dev/full"));
    assert!(status == 2 && said.contains("/dev/full: No space left"), "{said}");
    let (status, _, said) = bash("$lineage draw - <&-");
    assert!(status == 2 && said.contains("standard input: Bad file descriptor"), "{said}");
    let (status, _, said) = bash("$lineage draw - < .");
    assert!(status == 2 && said.contains("standard input: Is a directory"), "{said}");
    assert_eq!(bash(&format!("$lineage draw {tree} -o /no/such/folder/x.svg")).0, 2);
    // a frame is printed only where the tree file is there
    let (status, told, said) = bash("$lineage tallest 5 -o /dev/full");
    assert!(status == 2 && told.is_empty() && said.contains("/dev/full: No space left"), "{told}{said}");
    // nobody reads on: quiet, and one status, whether the signal is taken or not
    for first in ["", "trap '' PIPE; "] {
        let (status, _, said) = bash(&format!("set -o pipefail; {first}$lineage draw {large} | head -c 10"));
        assert_eq!((status, said.as_str()), (141, ""));
    }
    // a message that cannot be written changes no status
    assert_eq!(bash("$lineage draw no-such-file 2>&-").0, 2);
    assert_eq!(bash("$lineage draw no-such-file 2>/dev/full").0, 2);
}

#[test]
fn conventions() {
    let tree = five("conventions.tree");
    let (status, message) = fails(&[]);
    assert!(status == 2 && message.contains("draw TREE"), "{message}");
    assert_eq!(fails(&["paint"]).0, 2);
    assert_eq!(fails(&["help", "paint"]).0, 2);
    assert_eq!(fails(&["--paint"]).0, 2);
    assert_eq!(out(&["--version"]), format!("lineage {}\n", env!("CARGO_PKG_VERSION")));
    assert_eq!(out(&["-h"]), out(&["--help"]));
    assert_eq!(out(&["help"]), out(&["--help"]));
    for command in
        ["draw", "sheet", "check", "direction", "numbers", "tallest", "outline", "completion", "man", "help"]
    {
        let help = out(&[command, "--help"]);
        assert!(help.starts_with(&format!("lineage {command}")) && help.contains("Exit status:"));
        assert_eq!(out(&[command, "-h"]), help);
        assert_eq!(out(&["help", command]), help);
        assert!(out(&["--help"]).contains(&format!("    {command} ")));
    }
    assert_eq!(out(&["sheet", "-o", "-", "--", &tree]), FRESH);
    assert_eq!(bash(&format!("$lineage sheet - <{tree}")).1, FRESH);
}

#[test]
fn wrong_uses_are_told_in_a_line() {
    let tree = five("wrong-uses.tree");
    for wrong in [
        &["draw", "no-such-file"][..],
        &["sheet", &tree, "--rule", "steep", "--rule", "steep"],
        &["sheet", &tree, "--rule=flat"],
        &["sheet", &tree, &tree],
        &["check", &tree, "--places", &tree, "--rule", "steep"],
        &["check", &tree, "--sheet", &tree, "--rule", "steep"],
        &["direction", &tree, "1", "2", "--sheet", &tree],
        &["numbers", &tree, "--rule", "steep"],
        &["draw", &tree, "--page", "A9"],
        &["draw", &tree, "--window", "4,4"],
        &["sheet", &tree, "--window", "4,4,2"],
        &["draw", &tree, "--lengthen", "1"],
        &["draw", &tree, "--lengthen", "1:x"],
        &["draw", &tree, "--column", "1"],
        &["draw", &tree, "--hold", "1:1"],
        &["sheet", &tree, "--free", "x"],
        &["check", &tree, "--places", &tree, "--hold", "1"],
        &["check", &tree, "--places", &tree, "--free", "1"],
        &["check", &tree, "--places", &tree, "--small"],
        &["numbers", &tree, "--small"],
        &["sheet", &tree, "--small=yes"],
        &["tallest"],
        &["tallest", "-1"],
        &["tallest", "5", "6"],
        &["tallest", "5", "--rule", "steep"],
        &["tallest", "5", "-o"],
        &["outline", &tree, "--rule", "steep"],
        &["completion", "zsh"],
        &["man", "draw"],
    ] {
        let (status, message) = fails(wrong);
        assert!(
            status == 2 && message.starts_with("lineage: ") && message.lines().count() == 1,
            "{wrong:?}: {message}"
        );
    }
}

/// What bash offers for a line; the last word is the one that is being typed.
fn offered(words: &str) -> Vec<String> {
    let line = format!(
        "source <($lineage completion bash); COMP_WORDS=({words}); COMP_CWORD=$((${{#COMP_WORDS[@]}} - 1)); \
         _lineage; printf '%s\\n' \"${{COMPREPLY[@]}}\""
    );
    let (status, told, said) = bash(&line);
    assert!(status == 0 && said.is_empty(), "{said}");
    told.lines().filter(|l| !l.is_empty()).map(str::to_string).collect()
}

#[test]
fn bash_completes() {
    assert_eq!(offered("lineage d"), ["draw", "direction"]);
    assert_eq!(offered("lineage t"), ["tallest"]);
    assert_eq!(offered("lineage tallest 5 -"), ["-o", "--help"]);
    assert_eq!(offered("lineage draw x --p"), ["--path", "--page"]);
    assert_eq!(offered("lineage draw x --w"), ["--window"]);
    assert_eq!(offered("lineage check x --h"), ["--hold", "--help"]);
    assert_eq!(offered("lineage sheet x --c"), ["--column"]);
    assert_eq!(offered("lineage draw x --rule b"), ["balanced"]);
    assert_eq!(offered("lineage draw x --page ''"), ["A4", "A3"]);
    assert_eq!(offered("lineage completion ''"), ["bash"]);
    assert_eq!(offered("lineage help o"), ["outline"]);
    let tree = five("complete-me.tree");
    let begun = tree.strip_suffix("-me.tree").unwrap();
    assert_eq!(offered(&format!("lineage draw {begun}")), std::slice::from_ref(&tree));
    assert_eq!(offered(&format!("lineage draw x --sheet {begun}")), [tree]);
}

#[test]
fn the_manual_page_tells_what_the_help_tells() {
    let page = out(&["man"]).replace("\\-", "-");
    for command in ["draw", "sheet", "check", "direction", "numbers", "tallest", "outline"] {
        let help = out(&[command, "--help"]);
        for option in help.lines().filter_map(|line| line.strip_prefix("    -")) {
            let name = format!(".B -{}", option.split_whitespace().next().unwrap());
            assert!(page.contains(&name), "{name}");
        }
        assert!(page.contains(&format!(".SS {command}\n")));
    }
    for status in ["0", "1", "2", "141"] {
        assert!(page.contains(&format!(".B {status}\n")));
    }
}
