//! Sheet files: a sheet as text, to be read by people and taken up again.
//!
//! The first line names the rule, the number of lots and the frame in grid cells; the second names the columns, so that
//! a later file may have more; then a line for each lot, in order. Files from before version 0.5 have no column `held`:
//! none of their lines is. `name` is the last column where there is one; names may have spaces.

use lineage::{Frame, Rule, Sheet};
use std::fmt::Write as _;

/// What every sheet file begins with.
pub const FIRST: &str = "lineage sheet:";

const COLUMNS: [&str; 4] = ["lot", "times", "x", "y"];
const HELD: &str = "held";
const NAME: &str = "name";

pub fn text(sheet: &Sheet, names: &[String]) -> String {
    let (n, frame) = (sheet.tree().lots(), sheet.frame());
    let mut text = String::new();
    writeln!(text, "{FIRST} rule {}, lots {n}, frame {} {}", sheet.rule(), frame.width, frame.height).unwrap();
    writeln!(text, "{} {HELD}{}", COLUMNS.join(" "), if names.is_empty() { "" } else { " name" }).unwrap();
    for v in 0..n {
        write!(text, "{v} {} {} {} {}", sheet.times()[v], sheet.x()[v], sheet.y()[v], sheet.held()[v]).unwrap();
        match names.get(v).filter(|name| !name.is_empty()) {
            Some(name) => writeln!(text, " {name}").unwrap(),
            None => text.push('\n'),
        }
    }
    text
}

/// What a sheet file says; that the lists are a sheet is for the library to say.
pub struct Saved {
    pub rule: Rule,
    pub frame: Frame,
    pub times: Vec<u32>,
    pub x: Vec<u32>,
    pub y: Vec<u32>,
    pub held: Vec<u32>,
    pub names: Vec<String>,
}

/// A line of a text, taken word by word, with the columns for messages.
pub struct Words<'a> {
    line: usize,
    text: &'a str,
    at: usize,
}

impl<'a> Words<'a> {
    pub fn new(line: usize, text: &'a str) -> Words<'a> {
        Words { line, text, at: 0 }
    }

    /// What is left of the line, without the spaces before it.
    fn rest(&mut self) -> &'a str {
        let rest = &self.text[self.at..];
        self.at += rest.len() - rest.trim_start().len();
        rest.trim()
    }

    pub fn wrong<T>(&self, what: &str) -> Result<T, String> {
        let column = self.text[..self.at].chars().count() + 1;
        Err(format!("{}:{column}: {what}", self.line))
    }

    pub fn number(&mut self, what: &str) -> Result<u32, String> {
        let rest = self.rest();
        let digits = rest.len() - rest.trim_start_matches(|c: char| c.is_ascii_digit()).len();
        let ends = rest[digits..].chars().next().is_none_or(|c| c.is_whitespace() || c == ',');
        match rest[..digits].parse() {
            Ok(number) if ends => {
                self.at += digits;
                Ok(number)
            }
            _ => self.wrong(&format!("{what} is expected here, a whole number below 4,294,967,296")),
        }
    }

    fn expect(&mut self, word: &str) -> Result<(), String> {
        if !self.rest().starts_with(word) {
            return self.wrong(&format!("'{word}' is expected here"));
        }
        self.at += word.len();
        Ok(())
    }

    /// Whether the next word is this one, which is taken then.
    fn take(&mut self, word: &str) -> bool {
        let next = self.rest().split_whitespace().next() == Some(word);
        self.at += if next { word.len() } else { 0 };
        next
    }

    pub fn end(&mut self) -> Result<(), String> {
        if self.rest().is_empty() {
            return Ok(());
        }
        self.wrong("nothing more is expected on this line")
    }
}

/// The rule, the number of lots and the frame of the first line.
fn header(mut words: Words) -> Result<(Rule, usize, Frame), String> {
    words.expect(FIRST)?;
    words.expect("rule")?;
    let rest = words.rest();
    let Some(rule) = Rule::ALL.into_iter().find(|rule| rest.starts_with(&format!("{rule},"))) else {
        return words.wrong("'steep,' or 'balanced,' is expected here");
    };
    words.expect(&format!("{rule},"))?;
    words.expect("lots")?;
    let lots = words.number("the number of lots")? as usize;
    words.expect(", frame")?;
    let (width, height) = (words.number("the frame's width")?, words.number("the frame's height")?);
    words.end()?;
    Ok((rule, lots, Frame { width, height }))
}

/// Whether there is a column of held lines, and one of names, after those that every sheet file has.
fn columns(mut words: Words) -> Result<(bool, bool), String> {
    for column in COLUMNS {
        words.expect(column)?;
    }
    let (held, named) = (words.take(HELD), words.take(NAME));
    if !words.rest().is_empty() {
        return words.wrong("this column is not known");
    }
    Ok((held, named))
}

/// What the text says, or the line, the column and what is wrong there.
pub fn parse(text: &str) -> Result<Saved, String> {
    let mut lines = text.lines().enumerate().map(|(i, line)| Words::new(i + 1, line));
    let (rule, lots, frame) = header(lines.next().unwrap_or(Words::new(1, "")))?;
    let (held, named) = columns(lines.next().unwrap_or(Words::new(2, "")))?;
    let mut saved = Saved { rule, frame, times: vec![], x: vec![], y: vec![], held: vec![], names: vec![] };
    for mut words in lines {
        let lot = saved.times.len();
        if lot == lots {
            return words.wrong(&format!("a line after the last of {lots} lots"));
        }
        if words.number("the lot")? as usize != lot {
            words.at = 0;
            return words.wrong(&format!("lot {lot} is expected here"));
        }
        saved.times.push(words.number("times")?);
        saved.x.push(words.number("x")?);
        saved.y.push(words.number("y")?);
        saved.held.push(if held { words.number(HELD)? } else { 0 });
        if named {
            saved.names.push(words.rest().to_string());
        } else {
            words.end()?;
        }
    }
    if saved.times.len() < lots {
        return Err(format!("{}:1: the text ends, and lot {} is expected", saved.times.len() + 3, saved.times.len()));
    }
    Ok(saved)
}

#[cfg(test)]
mod tests {
    use super::*;
    use lineage::Tree;

    const FIVE: &str = "lineage sheet: rule steep, lots 5, frame 5 12\nlot times x y held name\n0 1 0 0 0 the root\n\
                        1 3 3 9 0\n2 1 1 4 1 b\n3 1 4 10 1 c d\n4 1 4 11 0 e\n";

    /// The sheet of the five lots that a text says, and its names.
    fn five(text: &str) -> (Sheet, Vec<String>) {
        let Saved { rule, times, x, y, held, names, .. } = parse(text).unwrap();
        let tree = Tree::new(vec![0, 0, 0, 1, 1], vec![0, 0, 1, 0, 1]).unwrap();
        (Sheet::from_lists(tree, rule, times, x, y, held).unwrap(), names)
    }

    #[test]
    fn five_lots_there_and_back() {
        let (sheet, names) = five(FIVE);
        assert_eq!(names, ["the root", "", "b", "c d", "e"]);
        assert_eq!(sheet.held(), [0, 0, 1, 1, 0]);
        assert_eq!(text(&sheet, &names), FIVE);
        assert!(parse(&text(&sheet, &[])).unwrap().names.is_empty());
    }

    /// As versions before 0.5 wrote it. What stands where held would be is a name.
    #[test]
    fn without_its_column_no_line_is_held() {
        let earlier = "lineage sheet: rule steep, lots 5, frame 5 12\nlot times x y\n0 1 0 0\n1 3 3 9\n2 1 1 4\n\
                       3 1 4 10\n4 1 4 11\n";
        let (sheet, names) = five(earlier);
        assert!(sheet.held() == [0; 5] && names.is_empty());
        let named =
            earlier.replace("y\n", "y name\n").replace("4 10\n", "4 10 1 root\n").replace("11\n", "11 held\n");
        assert_eq!(five(&named), (sheet.clone(), ["", "", "", "1 root", "held"].map(String::from).to_vec()));
        let again = text(&sheet, &[]);
        assert!(again.contains("\nlot times x y held\n0 1 0 0 0\n"), "{again}");
        assert_eq!(five(&again).0, sheet);
    }

    #[test]
    fn what_is_wrong_is_told_with_line_and_column() {
        let wrong = |from: &str, to: &str| parse(&FIVE.replacen(from, to, 1)).err().unwrap();
        assert!(wrong("steep", "step").starts_with("1:21: 'steep,'"));
        assert!(wrong("lots 5", "lots five").starts_with("1:33: the number of lots"));
        assert!(wrong("frame", "fame").starts_with("1:34: ', frame'"));
        assert!(wrong("held name", "held colour name").starts_with("2:20: this column is not known"));
        assert!(wrong("held name", "name held").starts_with("2:20: this column is not known"));
        assert!(wrong("held name", "helden name").starts_with("2:15: this column is not known"));
        assert!(wrong("3 3 9 0", "3 3 9").starts_with("4:8: held is expected"));
        assert!(wrong("1 4 1 b", "1 4 b").starts_with("5:9: held is expected"));
        assert!(wrong("3 3 9", "3 3x 9").starts_with("4:5: x is expected"));
        assert!(wrong("3 3 9 0", "3 3").starts_with("4:6: y is expected"));
        assert!(wrong("3 3 9", "3 4294967296 9").starts_with("4:5: x is expected"));
        assert!(wrong("\n2 1", "\n7 1").starts_with("5:1: lot 2 is expected"));
        assert!(wrong("lots 5", "lots 4").starts_with("7:1: a line after the last"));
        assert!(wrong("lots 5", "lots 6").starts_with("8:1: the text ends"));
    }
}
