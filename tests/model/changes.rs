// Builds the changes of changes.txt into copies of model.rs and due.rs, each as a choice made at run time: a text that is
// changed becomes `match crate::changed() { 17 => { the new text } _ => { the old } }`. Also writes the names, for measure.rs.
// build: rustc changes.rs
// run:   ./changes tests/model FOLDER
use std::{collections::BTreeMap, env, fs};

const SOURCES: [&str; 2] = ["model.rs", "due.rs"];

// The items of model.rs that say which records are valid.
const VALIDITY: [&str; 3] = ["pub fn valid(", "fn in_range(", "fn most_unfinished("];

/// One change: its name, why nothing can see it where that is so, and its edits.
struct Change {
    name: String,
    unseen: Option<String>,
    edits: Vec<Edit>,
}

/// A line of an item of a file, in which the text between « and → is to become the text between → and ».
struct Edit {
    file: String,
    item: String,
    line: String,
}

/// A place in a file, from and up to a byte, and the changes that replace it: their numbers and texts.
type Replaced = BTreeMap<(usize, usize), Vec<(usize, String)>>;

// The changes of a list. A line that starts with # is a remark, one that is not indented names a change.
fn changes(list: &str) -> Vec<Change> {
    let mut all: Vec<Change> = Vec::new();
    for line in list.lines().filter(|line| !line.is_empty() && !line.starts_with('#')) {
        if !line.starts_with(' ') {
            all.push(Change { name: line.to_string(), unseen: None, edits: Vec::new() });
            continue;
        }
        let change = all.last_mut().expect("a list starts with a name");
        match line.trim_start().strip_prefix("unseen: ") {
            Some(why) => change.unseen = Some(why.to_string()),
            None => change.edits.push(edit(line.trim_start())),
        }
    }
    all
}

// An edit: FILE: ITEM | LINE. Without a file it is of model.rs.
fn edit(text: &str) -> Edit {
    let (place, line) = text.split_once(" | ").unwrap_or_else(|| panic!("{text}: no item"));
    let (file, item) = place.split_once(": ").unwrap_or((SOURCES[0], place));
    assert!(SOURCES.contains(&file), "{text}: no such file");
    Edit { file: file.to_string(), item: item.to_string(), line: line.to_string() }
}

// A change as measure.rs has it: its name, whether nothing can see it, and whether it is of which records are valid.
fn named(change: &Change) -> String {
    let validity = change.edits.iter().any(|edit| VALIDITY.contains(&&edit.item[..]));
    format!("    ({:?}, {}, {validity}),\n", change.name, change.unseen.is_some())
}

// Where a text stands in another, if it stands there once.
fn once(text: &str, part: &str) -> Option<usize> {
    let mut places = text.match_indices(part);
    let (place, _) = places.next()?;
    places.next().is_none().then_some(place)
}

// Where an item starts and ends: it ends at the next brace that closes a line no deeper than its own.
fn item(source: &str, name: &str) -> Result<(usize, usize), &'static str> {
    let start = once(source, name).ok_or("there is no such item, or more than one")?;
    let line = source[..start].rfind('\n').map_or(0, |place| place + 1);
    let indent: String = source[line..].chars().take_while(|&letter| letter == ' ').collect();
    let length = source[start..].find(&format!("\n{indent}}}")).ok_or("the item has no end")?;
    Ok((start, start + length))
}

// The place that an edit replaces, and the new text.
fn place(source: &str, edit: &Edit) -> Result<((usize, usize), String), &'static str> {
    let (start, end) = item(source, &edit.item)?;
    let (before, rest) = edit.line.split_once('«').ok_or("nothing is marked")?;
    let (old, rest) = rest.split_once(" → ").ok_or("there is no new text")?;
    let (new, after) = rest.split_once('»').ok_or("nothing is marked")?;
    let found = once(&source[start..end], &format!("{before}{old}{after}")).ok_or("the text is not there, or more than once")?;
    let from = start + found + before.len();
    Ok(((from, from + old.len()), new.to_string()))
}

// A part of a source with its changes built in: the outermost places first, and within each what it holds.
fn built(source: &str, (from, to): (usize, usize), replaced: &Replaced) -> String {
    let mut text = String::new();
    let mut at = from;
    let mut within: Vec<(usize, usize)> = replaced.keys().copied().filter(|&(a, e)| from <= a && e <= to && (a, e) != (from, to)).collect();
    within.sort_by_key(|&(a, e)| (a, usize::MAX - e));
    for (start, end) in within {
        if start < at {
            assert!(end <= at, "two changes overlap: {}", &source[start..end]);
            continue;
        }
        text += &source[at..start];
        text += &chosen(source, (start, end), replaced);
        at = end;
    }
    text + &source[at..to]
}

// The choice at one place. A statement stays one.
fn chosen(source: &str, place: (usize, usize), replaced: &Replaced) -> String {
    let arms: String = replaced[&place].iter().map(|(number, new)| format!("{number} => {{ {new} }} ")).collect();
    let old = built(source, place, replaced);
    let end = if old.ends_with(';') { ";" } else { "" };
    format!("(match crate::changed() {{ {arms}_ => {{ {old} }} }}){end}")
}

fn main() {
    let words: Vec<String> = env::args().collect();
    let (sources, folder) = (&words[1], &words[2]);
    let all = changes(&fs::read_to_string(format!("{sources}/changes.txt")).expect("changes.txt"));
    for file in SOURCES {
        let source = fs::read_to_string(format!("{sources}/{file}")).expect(file);
        let mut replaced = Replaced::new();
        for (index, change) in all.iter().enumerate() {
            assert!(!change.edits.is_empty(), "{}: nothing is changed", change.name);
            for edit in change.edits.iter().filter(|edit| edit.file == file) {
                let (place, new) = place(&source, edit).unwrap_or_else(|why| panic!("{}: {}: {why}", change.name, edit.line));
                replaced.entry(place).or_default().push((index + 1, new));
            }
        }
        fs::write(format!("{folder}/{file}"), built(&source, (0, source.len()), &replaced)).expect("a file written");
    }
    let names: String = all.iter().map(named).collect();
    fs::write(format!("{folder}/names.rs"), format!("pub const NAMES: &[(&str, bool, bool)] = &[\n{names}];\n")).expect("a file written");
}
