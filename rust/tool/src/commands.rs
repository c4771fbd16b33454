//! The commands: what each reads, asks of the library and writes.

use crate::arguments::{self, number, three, two, Given};
use crate::column;
use crate::draw;
use crate::files::{self, Content, Source};
use crate::page::Page;
use crate::plan::Ask;
use crate::sheetfile::{self, Saved, Words};
use crate::stop::{misuse, refused, Stop, REFUSED};
use crate::{completion, help, manual, outline};
use lineage::{check, Cabinet, Frame, PostNumbers, Rule, Sheet, Tree, Verdict, Window};
use std::ffi::OsStr;
use std::io::Write;

pub fn run(given: &Given) -> Result<(), Stop> {
    match given.command.name {
        "draw" => draw_command(given),
        "sheet" => sheet_command(given),
        "check" => check_command(given),
        "direction" => direction_command(given),
        "numbers" => numbers_command(given),
        "tallest" => tallest_command(given),
        "outline" => outline_command(given),
        "completion" => completion_command(given),
        "man" => files::write(None, manual::page().as_bytes()),
        _ => help_command(given),
    }
}

fn rule(given: &Given) -> Result<Rule, Stop> {
    let Some(word) = given.one("--rule") else { return Ok(Rule::Steep) };
    match Rule::ALL.into_iter().find(|rule| word == rule.to_string().as_str()) {
        Some(rule) => Ok(rule),
        None => misuse(format!("--rule: '{}' is not a rule: steep or balanced", word.to_string_lossy())),
    }
}

/// The sheet that was saved, or a fresh one.
fn opened(given: &Given, source: Source) -> Result<(Sheet, Vec<String>), Stop> {
    let cabinet = if given.has("--small") { Cabinet::Small } else { Cabinet::Large };
    let Some(path) = given.one("--sheet") else {
        let sheet = Sheet::new_in(source.tree, rule(given)?, cabinet).map_err(refused(&source.file))?;
        return Ok((sheet, source.names));
    };
    let file = files::shown(path);
    let Content::Sheet(text) = files::content(files::read(path)?) else {
        return misuse(format!("{file}: is not a sheet file, as 'lineage sheet -o FILE' writes it"));
    };
    let Saved { rule, frame, times, x, y, held, names } =
        sheetfile::parse(&text).or_else(|e| misuse(format!("{file}:{e}")))?;
    let sheet = Sheet::from_lists_in(source.tree, rule, cabinet, times, x, y, held).map_err(refused(&file))?;
    if sheet.frame() != frame {
        let Frame { width, height } = sheet.frame();
        return misuse(format!("{file}:1: the frame is {width} {height}, in grid cells"));
    }
    Ok((sheet, if source.names.is_empty() { names } else { source.names }))
}

/// An option that asks for a call on the sheet, as it was given, and what it says.
struct Change<'a> {
    option: &'static str,
    value: &'a OsStr,
    lot: u32,
    /// The number behind the lot, a count or a column; 0 where none is taken.
    second: u32,
}

impl Change<'_> {
    fn lengthens(&self) -> bool {
        self.option == "--lengthen"
    }
}

/// The options that ask for calls, in the order that they are given in.
fn changes(given: &Given) -> Result<Vec<Change<'_>>, Stop> {
    let change = |(option, value)| {
        let (lot, second) = match option {
            "--hold" | "--free" => (number(option, value)?, 0),
            _ => two(option, value)?,
        };
        Ok(Change { option, value, lot, second })
    };
    given.all(&["--lengthen", "--shorten", "--column", "--hold", "--free"]).map(change).collect()
}

/// The call for options one after another, which are more than one only where they all lengthen. Where it is not made,
/// the place of the option among them, from 1, and why.
fn make_call(sheet: &mut Sheet, run: &[Change]) -> Result<Frame, (usize, String)> {
    let Change { option, lot, second, .. } = run[0];
    let called = match option {
        "--lengthen" => {
            let lengthens: Vec<(u32, u32)> = run.iter().map(|change| (change.lot, change.second)).collect();
            return sheet.lengthen_each(&lengthens).map_err(|stopped| (stopped.place, stopped.refused.to_string()));
        }
        "--column" => return column::bring(sheet, lot, second).map_err(|why| (1, why)),
        "--shorten" => sheet.shorten(lot, second),
        "--hold" => sheet.hold(lot),
        _ => sheet.free(lot),
    };
    called.map_err(|refused| (1, refused.to_string()))
}

/// An option as it was given, and which of its name it is where there are more.
fn told(changes: &[Change], at: usize) -> String {
    let Change { option, value, .. } = changes[at];
    let named = |changes: &[Change]| changes.iter().filter(|change| change.option == option).count();
    let which = match named(changes) {
        1 => String::new(),
        all => format!(" ({} of {all})", named(&changes[..=at])),
    };
    format!("{option} {}{which}", value.to_string_lossy())
}

/// The sheet that the options ask for, and the names of its lots.
fn asked(given: &Given) -> Result<(Sheet, Vec<String>), Stop> {
    let changes = changes(given)?;
    let source = files::source(&given.words[0])?;
    let file = source.file.clone();
    let (mut sheet, names) = opened(given, source)?;
    let mut made = 0;
    for run in changes.chunk_by(|a, b| a.lengthens() && b.lengthens()) {
        make_call(&mut sheet, run)
            .map_err(|(place, why)| refused(format!("{file}: {}", told(&changes, made + place - 1)))(why))?;
        made += run.len();
    }
    Ok((sheet, names))
}

/// The window that is asked for.
fn window(given: &Given, file: &str) -> Result<Option<Window>, Stop> {
    let Some(word) = given.one("--window") else { return Ok(None) };
    let (a, b, m) = three("--window", word)?;
    let about = format!("{file}: --window {}", word.to_string_lossy());
    Window::new((a, b), m).map(Some).map_err(refused(about))
}

fn draw_command(given: &Given) -> Result<(), Stop> {
    let (sheet, names) = asked(given)?;
    let file = files::shown(&given.words[0]);
    let lot = |name: &str| given.one(name).map(|word| number(name, word)).transpose();
    let mut ask = Ask {
        page: match given.one("--page") {
            Some(word) => Page::named(&word.to_string_lossy()).or_else(|e| misuse(format!("--page: {e}")))?,
            None => Page::default(),
        },
        title: given.one("--title").map_or(String::new(), |t| t.to_string_lossy().into_owned()),
        root: lot("--root")?.unwrap_or(0),
        depth: lot("--depth")?,
        window: window(given, &file)?,
        to_scale: given.has("--to-scale"),
        paths: Vec::new(),
        marks: Vec::new(),
    };
    if ask.root as usize >= sheet.tree().lots() {
        return misuse(format!("--root: {file} has no lot {}", ask.root));
    }
    for (option, value) in given.all(&["--path"]) {
        let (u, v) = two(option, value)?;
        ask.paths.push((u, v, sheet.direction(u, v).map_err(refused(format!("{file}: lots {u} and {v}")))?));
    }
    for (option, value) in given.all(&["--mark"]) {
        ask.marks.push(number(option, value)?);
    }
    let svg = draw::page(&sheet, &names, &ask).or_else(|e| misuse(format!("{file}: {e}")))?;
    files::write(given.one("-o"), svg.as_bytes())
}

fn sheet_command(given: &Given) -> Result<(), Stop> {
    let (sheet, names) = asked(given)?;
    files::write(given.one("-o"), sheetfile::text(&sheet, &names).as_bytes())
}

/// The places of a file, a line of x and y for each lot.
fn places(path: &OsStr) -> Result<(Vec<u32>, Vec<u32>), Stop> {
    let file = files::shown(path);
    let text = String::from_utf8(files::read(path)?).or_else(|_| misuse(format!("{file}: is not text")))?;
    let (mut x, mut y) = (Vec::new(), Vec::new());
    for (i, line) in text.lines().enumerate().filter(|(_, l)| !l.trim().is_empty()) {
        let mut words = Words::new(i + 1, line);
        let read = words.number("x").and_then(|across| {
            x.push(across);
            y.push(words.number("y")?);
            words.end()
        });
        read.or_else(|e| misuse(format!("{file}:{e}")))?;
    }
    Ok((x, y))
}

fn check_command(given: &Given) -> Result<(), Stop> {
    let file = files::shown(&given.words[0]);
    let verdict = match given.one("--places") {
        None => asked(given)?.0.check(),
        Some(path) => {
            let (x, y) = places(path)?;
            check(&files::source(&given.words[0])?.tree, &x, &y)
        }
    };
    match verdict.map_err(refused(file))? {
        Verdict::Monotone => files::write(None, b"Monotone\n"),
        Verdict::Turns(u, v) => {
            files::write(None, format!("Turns {u} {v}\n").as_bytes())?;
            Err(Stop { status: REFUSED, message: String::new() })
        }
    }
}

fn direction_command(given: &Given) -> Result<(), Stop> {
    let (u, v) = (number("FROM", &given.words[1])?, number("TO", &given.words[2])?);
    let rule = rule(given)?;
    let source = files::source(&given.words[0])?;
    let along = lineage::direction(&source.tree, rule, u, v);
    let along = along.map_err(refused(format!("{}: lots {u} and {v}", source.file)))?;
    files::write(None, format!("{} {}\n", along.d, along.e).as_bytes())
}

fn numbers_command(given: &Given) -> Result<(), Stop> {
    let PostNumbers { first, last } = files::source(&given.words[0])?.tree.post_numbers();
    let both = first.iter().zip(&last).enumerate();
    let text: String = both.map(|(lot, (first, last))| format!("{lot} {first} {last}\n")).collect();
    files::write(given.one("-o"), text.as_bytes())
}

fn tallest_command(given: &Given) -> Result<(), Stop> {
    let (n, out) = (number("N", &given.words[0])?, given.one("-o"));
    if out.is_some_and(|path| path == "-") {
        return misuse("-o: standard output has the frame, so the tree file needs a name");
    }
    let (tree, Frame { width, height }) = Tree::tallest(n).map_err(refused(format!("{n} lots")))?;
    if let Some(path) = out {
        // before the frame, so that a frame which is printed says that the file is there
        files::write(out, &tree.to_bytes())?;
        files::remove_names(path)?;
    }
    files::write(None, format!("{width} {height}\n").as_bytes())
}

fn outline_command(given: &Given) -> Result<(), Stop> {
    let (path, out) = (&given.words[0], given.one("-o"));
    let file = files::shown(path);
    if given.has("--back") {
        return outline_back(path, out);
    }
    let text = match files::content(files::read(path)?) {
        Content::Outline(text) => text,
        Content::Tree(_) => {
            return misuse(format!(
                "{file}: is a tree file, not an outline; 'lineage outline --back' turns it into one"
            ))
        }
        Content::Sheet(_) => return misuse(format!("{file}: is a sheet file, not an outline")),
        Content::Neither => return files::neither(&file),
    };
    let source = files::outlined(file, &text)?;
    files::write(out, &source.tree.to_bytes())?;
    let named = source.names.iter().filter(|name| !name.is_empty()).count();
    if !files::write_names(out, &source.names)? && named > 0 {
        let what = format!(
            "lineage: {}: {named} names are not kept: they stand beside a file, so name one by -o",
            source.file
        );
        let _ = writeln!(std::io::stderr(), "{what}");
    }
    Ok(())
}

fn outline_back(path: &OsStr, out: Option<&OsStr>) -> Result<(), Stop> {
    let source = match files::content(files::read(path)?) {
        Content::Tree(bytes) => files::treed(path, &bytes)?,
        Content::Neither => return files::neither(&files::shown(path)),
        _ => return misuse(format!("{}: is text already, not a tree file", files::shown(path))),
    };
    files::write(out, outline::text(&source.tree, &source.names).as_bytes())
}

fn completion_command(given: &Given) -> Result<(), Stop> {
    match given.words[0].to_str() {
        Some("bash") => files::write(None, completion::bash().as_bytes()),
        _ => misuse(format!("no completion for '{}': there is one for bash", given.words[0].to_string_lossy())),
    }
}

fn help_command(given: &Given) -> Result<(), Stop> {
    let Some(topic) = given.words.first() else { return files::write(None, help::all().as_bytes()) };
    match arguments::command(topic) {
        Some(command) => files::write(None, help::of(command).as_bytes()),
        None => misuse(format!("no command '{}' to help with; see 'lineage --help'", topic.to_string_lossy())),
    }
}
