// Measures what the script of crates/vectors and the inputs of the listing see: the model with one rule changed at a time, as
// changes.rs builds it, has to answer or to list something otherwise, unless the list says that nothing can see the change.
// A change must not be seen for the plain reason that the model no longer reads its records: each valid one is still read, and
// written again it is the same bytes. Only a change of which records are valid may make some of them malformed; not all, and
// those that it reads come back as they were.
// run: ./measure crates
mod due;
mod fixed;
mod model;
mod names;
mod script;

use fixed::Listed;
use names::NAMES;
use script::{answer, requests, Request};
use std::sync::atomic::{AtomicUsize, Ordering::Relaxed};

static CHANGED: AtomicUsize = AtomicUsize::new(0);

/// The number of the change that is made; 0 is none.
pub fn changed() -> usize {
    CHANGED.load(Relaxed)
}

// What can see a change: its name, its ticks if it is a request, what is due, and what the model makes of it now.
struct Sight<'a> {
    name: &'a str,
    ticks: usize,
    due: Vec<u8>,
    now: Box<dyn Fn() -> Vec<u8> + 'a>,
}

// A request of the script. What is due is what the unchanged model answers, which is held to the whole by itself.
fn asked<'a>(request: &'a Request) -> Sight<'a> {
    let now = || answer(request).into_bytes();
    Sight { name: request.line, ticks: ticks(request.line), due: now(), now: Box::new(now) }
}

// The ticks of a request of the script.
fn ticks(line: &str) -> usize {
    match line.split(' ').collect::<Vec<_>>()[..] {
        ["s", ticks, capture] => capture.matches('t').count() * usize::from_str_radix(ticks, 16).expect("ticks"),
        _ => 0,
    }
}

// An input of the listing.
fn shown(listed: &Listed) -> Sight<'_> {
    Sight { name: &listed.name, ticks: 0, due: listed.due.clone(), now: Box::new(|| model::listing(&listed.input)) }
}

// The first that sees the change. It is asked first of the next change too, which is often like this one.
fn seen_by<'a>(sights: &mut [Sight<'a>]) -> Option<&'a str> {
    let first = sights.iter().position(|sight| (sight.now)() != sight.due)?;
    sights[..=first].rotate_right(1);
    Some(sights[0].name)
}

// Whether each of these records is read and comes back as it was; or, of a change of which are valid, each that is read, and
// some are.
fn records_kept(records: &[&[u8]], validity: bool) -> bool {
    let read: Vec<_> = records.iter().filter_map(|record| model::Model::from_record(record).map(|chip| (record, chip))).collect();
    let enough = if validity { !read.is_empty() } else { read.len() == records.len() };
    enough && read.iter().all(|(record, chip)| chip.record()[..] == ***record)
}

// What becomes of a change: what saw it, or why it is wrong.
fn verdict<'a>(sights: &mut [Sight<'a>], unseen: bool) -> Result<&'a str, &'static str> {
    match (seen_by(sights), unseen) {
        (Some(sight), false) => Ok(sight),
        (None, true) => Ok("none, as the list says"),
        (None, false) => Err("nothing sees it"),
        (Some(_), true) => Err("something sees it, and the list says that nothing can"),
    }
}

// Makes each change in turn and says what became of it; how many are wrong.
fn measured(sights: &mut [Sight], records: &[&[u8]]) -> usize {
    let mut wrong = 0;
    for (index, &(name, unseen, validity)) in NAMES.iter().enumerate() {
        CHANGED.store(index + 1, Relaxed);
        let verdict = match records_kept(records, validity) {
            true => verdict(sights, unseen),
            false => Err("valid records are not read, or come back changed"),
        };
        match verdict {
            Ok(sight) => println!("{name}: {sight}"),
            Err(why) => println!("WRONG: {name}: {why}"),
        }
        wrong += verdict.is_err() as usize;
    }
    wrong
}

fn main() {
    let crates = std::env::args().nth(1).expect("measure CRATES");
    let text = |name: &str| std::fs::read_to_string(format!("{crates}/{name}")).expect(name);
    let script = text("vectors/stdin");
    let requests = requests(&script);
    let mut listings = fixed::listed(&text("listing_cases/src/main.rt"));
    listings.push(Listed { name: "listing/stdin".to_string(), input: text("listing/stdin").into(), due: text("listing/stdout").into() });
    let mut sights: Vec<Sight> = requests.iter().map(asked).collect();
    let mut wrong = 0;
    if sights.iter().flat_map(|sight| &sight.due).ne(text("vectors/stdout").as_bytes()) {
        println!("WRONG: the unchanged model does not write vectors/stdout");
        wrong += 1;
    }
    sights.extend(listings.iter().map(shown));
    if let Some(name) = seen_by(&mut sights) {
        println!("WRONG: the unchanged model lists {name} otherwise");
        wrong += 1;
    }
    sights.sort_by_key(|sight| sight.ticks);
    let valid = |request: &&Request| request.line.starts_with('=') && model::valid(&request.list);
    let records: Vec<&[u8]> = requests.iter().filter(valid).map(|request| &request.list[..]).collect();
    wrong += measured(&mut sights, &records);
    let hidden = NAMES.iter().filter(|(_, unseen, _)| *unseen).count();
    println!("{} rules changed, one at a time: {hidden} that nothing can see, {wrong} wrong, all others seen", NAMES.len());
    std::process::exit((wrong > 0) as i32);
}
