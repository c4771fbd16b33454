//! How a lot comes to a column, or why it does not.

use lineage::{Frame, Sheet};

/// Makes the line of a lot longer by the count that brings the lot to a column, or says why none does.
pub fn bring(sheet: &mut Sheet, lot: u32, column: u32) -> Result<Frame, String> {
    match sheet.column(lot, column) {
        Ok(Some(count)) => sheet.lengthen(lot, count).map_err(|refused| refused.to_string()),
        Ok(None) => Err(reason(sheet, lot, column)),
        Err(refused) => Err(refused.to_string()),
    }
}

/// Why no count brings a lot, which is not the root, to a column. The library has said that none does, so where it is
/// nothing else it is the limit.
fn reason(sheet: &Sheet, lot: u32, column: u32) -> String {
    let (v, parent) = (lot as usize, sheet.tree().parents()[lot as usize] as usize);
    let slope = |list: &[u32]| u64::from((list[v] - list[parent]) / sheet.times()[v]);
    let (across, up) = (slope(sheet.x()), slope(sheet.y()));
    let (x, y, column) = (u64::from(sheet.x()[v]), u64::from(sheet.y()[v]), u64::from(column));
    if sheet.held()[v] == 1 {
        return format!("the line of lot {lot} is held; --free {lot} frees it");
    }
    if column < x {
        return format!("lot {lot} stands at x {x}, right of that column; only --shorten goes left");
    }
    let (count, over) = ((column - x) / across, (column - x) % across);
    if over > 0 {
        let (from, to) = (column - over, column - over + across);
        return format!(
            "lot {lot} stands at x {x} and goes {across} across at a time: from {from} to {to}, past that column"
        );
    }
    let most = sheet.cabinet().max_place();
    let below = if column.max(y + count * up) > most.into() { "" } else { "a lot below " };
    format!("the place of {below}lot {lot} would be above {}", commas(most))
}

/// A number, with commas between the thousands.
fn commas(number: u32) -> String {
    let digits = number.to_string();
    let threes: Vec<_> = digits.as_bytes().rchunks(3).rev().map(String::from_utf8_lossy).collect();
    threes.join(",")
}
