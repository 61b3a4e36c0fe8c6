//! The manual's sections 2 and 3 against the library: listings, what a well-formed sheet can do wrong, and frames without a class or a label.

use crate::manual::{ask, file, listing, says, table, text, Case};
use crate::model::{ACCEPTED, ANY};
use crate::Tally;

/// Listings that are printed.
fn listings(tally: &mut Tally) {
    tally.same("the bottle's listing", &listing(file("examples/bottle.sheet").as_bytes()), &text("bottle-listing"), &[]);
    let named = "class object\na 1\na 2\n\nlabel from to\nl 1 2\n\nnode class pick fixed\nrefused a 1 -\nb a 1 -\n\nedge source target\nl refused b\n";
    tally.same("a node named refused", &listing(named.as_bytes()), &text("listing-of-a-node-named-refused"), &[]);
}

/// Section 3's calibration blocks: the sheet is that of the examples; and what it says of other numbers in place of 900.
fn blocks(tally: &mut Tally) {
    let sheet = text("block-sheet");
    tally.same("the manual's block is that of examples", &sheet, &file("examples/block.sheet"), &[]);
    tally.same("the block's listing", &text("block-listing"), &file("examples/block.listing"), &[]);
    says(tally, "With a dash in place of 900 there is a row more, 15,");
    says(tally, "with 14 in place of 900, which is no block, or with 902, which was not seen, there are no rows.");
    for (number, rows) in [("900", "14\n17\n"), ("-", "14\n15\n17\n"), ("65536", "14\n15\n17\n"), ("901", "15\n"), ("14", ""), ("902", "")] {
        let other = sheet.replace("block 0 900", &format!("block 0 {number}"));
        tally.same(&format!("block {number}"), &listing(other.as_bytes()), &format!("near\n{rows}"), &[]);
    }
}

/// Number and place of a refusal.
fn refused(sheet: &str) -> (u32, u32) {
    let text = listing(sheet.as_bytes());
    let fields: Vec<u32> = text.split_whitespace().skip(1).map(|field| field.parse().unwrap_or(99)).collect();
    if text.starts_with("refused ") && fields.len() == 2 { (fields[0], fields[1]) } else { (0, 0) }
}

/// A sheet with two classes, a label and two nodes, with one of its lines changed.
fn changed(line: &str, other: &str) -> String {
    let sheet = "class object\na 1\nb 2\na 3\n\nlabel from to\nl 1 2\nl 3 2\n\nnode class pick fixed\nx a 0 -\ny b 1 -\n\nedge source target\nl x y\n";
    assert!(sheet.contains(line) && refused(sheet) == (0, 0));
    sheet.replace(line, other)
}

/// The table of what a well-formed sheet can still do wrong; its two rules lead from the place to the line.
fn well_formed(tally: &mut Tally) {
    let table = table("## 2. The sheet");
    let numbers: Vec<&str> = table.iter().map(|row| row[1]).collect();
    tally.same("on the sheet", &numbers[..], &["3, place p", "5, place 0", "6, place p", "7, place 0", "15, place 0", "10, 11, 12"][..], &[]);
    // the values in the feed's order: a 1, a 3, b 2, l 1 2, l 3 2
    says(tally, "line (p - 2 - C - L) / 2 of the values");
    for (line, other, index) in [("a 3", "a 65536", 1), ("a 3", "a 1", 1), ("b 2", "b 99999", 2), ("l 3 2", "l 1 2", 4), ("l 1 2", "l 1 65536", 3)] {
        let (number, place) = refused(&changed(&format!("{line}\n"), &format!("{other}\n")));
        tally.same(&format!("the line of '{other}'"), &(number, (place - 2 - 2 - 1) / 2), &(3, index), &[place]);
    }
    says(tally, "node (p - 2) / 3, rounded down, counted");
    for (line, other, node) in
        [("x a 0 -", "x a 2 -", 0), ("y b 1 -", "y b 99999 -", 1), ("x a 0 -", "x a 0 65537", 0), ("y b 1 -", "y b 1 99999", 1)]
    {
        let (number, place) = refused(&changed(line, other));
        tally.same(&format!("the node of '{other}'"), &(number, (place - 2) / 3), &(6, node), &[place]);
    }
    tally.same("no pick", &refused(&changed("y b 1 -", "y b 0 -")), &(7, 0), &[]);
    tally.same("no node", &refused(&changed("x a 0 -\ny b 1 -\n\nedge source target\nl x y", "\nedge source target")), &(5, 0), &[]);
}

/// Frames with a fixed drawing behind them: a class or label that has no line is 14 at line f + 3 or below it; a frame's own breach is above that.
fn frames(tally: &mut Tally) {
    let sheet = file("examples/bottle.sheet");
    let (frame, drawing) = sheet.split_at(sheet.find("\nnode class pick fixed").unwrap());
    let without = |name: &str| frame.lines().filter(|line| !line.starts_with(name)).map(|line| format!("{line}\n")).collect::<String>();
    let asked = |frame: &str| (refused(&format!("{frame}{drawing}")), frame.lines().count() as u32);
    says(tally, "its first node line is line f + 3;");
    says(tally, "take `refused 14` with a place of f + 3 or more for");
    for (name, line) in [("cap ", 0), ("neck ", 1), ("body ", 2), ("covers ", 5), ("touches ", 6)] {
        let (found, f) = asked(&without(name));
        tally.same(&format!("no {name}in the frame"), &found, &(14, f + 3 + line), &[f]);
    }
    let cut = ["", "class object\n", "class object", "class object\ncap 1\n\nlabel from to", "class object\ncap 1\n\nlabel from to\ncovers 1\n"];
    for broken in cut.into_iter().chain([sheet.as_str()]) {
        let (found, f) = asked(broken);
        tally.same(&format!("the frame {broken:?}"), &(found.0, found.1 < f + 3), &(14, true), &[f, found.1]);
    }
    // in words a class may have no pairs
    let case = Case { feed: vec![2, 0, 1, 0, 5, 5], drawing: vec![2, 0, 0, 1, ANY, 1, 0, ANY], lengths: [60, 60, 9], ..Case::default() };
    let left = ask("matcher_query", &case);
    tally.same("a class without pairs", &(left.verdict, left.count), &(ACCEPTED, 0), &[]);
}

pub fn all(tally: &mut Tally) {
    listings(tally);
    blocks(tally);
    well_formed(tally);
    frames(tally);
}
