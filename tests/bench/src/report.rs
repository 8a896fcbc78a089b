//! The tables of a run, and the plot.

use crate::measure::{beside, measured, Row, EARLIER, RIVALS};
use crate::proved::Earlier;
use crate::workload::{Departure, Passage, Setting, Workload, GRADED, MESSAGES, SEED, SHARED, UNGRADED, WORKLOADS};
use crate::{closeness, impacts, plot, reading, screens, search};

/// The classroom: so many engines on one machine, each taking in so many messages.
const BOARDS: u64 = 40;
const BOARD_MESSAGES: usize = 400;

/// How many messages depart from each of the full windows of as many engines.
const DEPARTURES: usize = 50;

/// So few terms that, each being counted once, most scores are equal.
const TIED: Workload = Workload::short("ties", 4);

/// The rivals of the first table end here, and those of the others, without the full re-rank, start here.
const FIRST: usize = 6;
const QUICK: usize = 2;

fn line(cells: &[String]) {
    println!("| {} |", cells.join(" | "));
}

/// The head of a table: what rows are known by, the rivals' names, and what comes after.
fn head(before: &[&str], rivals: std::ops::Range<usize>, after: &[&str]) {
    let names = RIVALS[rivals].iter().map(|r| r.name);
    let cells: Vec<_> = before.iter().copied().chain(names).chain(after.iter().copied()).map(String::from).collect();
    line(&cells);
    println!("|{}", "---|".repeat(cells.len()));
}

fn two_digits(ratios: &[f64]) -> Vec<String> {
    ratios.iter().map(|r| format!("{r:.2}")).collect()
}

fn all_settings() -> Vec<Row> {
    head(&["shared terms", "N", "queries"], 0..FIRST, &["frames that reach no query"]);
    let mut rows = Vec::new();
    for workload in WORKLOADS {
        for capacity in [16, 64, 256] {
            for queries in [1, 8, 32] {
                let row = measured(&[&Passage::new(Setting { capacity, queries, workload }, MESSAGES, SEED)], &RIVALS);
                let known = vec![workload.name.into(), capacity.to_string(), queries.to_string()];
                line(&[known, two_digits(&row.ratios[..FIRST]), vec![format!("{:.1} %", 100.0 * row.idle)]].concat());
                rows.push(row);
            }
        }
    }
    rows
}

/// A row with the proved engine's speed and the ratios of the last rivals, those from QUICK on.
fn quick_line(known: &str, row: &Row) {
    let known = vec![known.into(), row.setting.queries.to_string(), format!("{:.0}", row.messages_per_second)];
    line(&[known, two_digits(&row.ratios[row.ratios.len() + QUICK - RIVALS.len()..])].concat());
}

fn largest(rows: &[Row]) {
    head(&["shared terms", "queries", "messages per second"], QUICK..RIVALS.len(), &[]);
    rows.iter().filter(|r| r.setting.capacity == 256).for_each(|row| quick_line(row.setting.workload.name, row));
}

/// A passage for each engine of a classroom, from a seed of its own.
fn each_its_own(passage: impl Fn(u64) -> Passage) -> Vec<Passage> {
    (0..BOARDS).map(|board| passage(SEED + board)).collect()
}

fn classroom() {
    head(&["messages", "queries", "messages per second for each"], QUICK..RIVALS.len(), &[]);
    for queries in [1, 32] {
        let setting = Setting { capacity: 256, queries, workload: SHARED[0] };
        let own = each_its_own(|seed| Passage::new(setting, BOARD_MESSAGES, seed));
        let own: Vec<_> = own.iter().collect();
        quick_line("the same", &measured(&vec![own[0]; own.len()], &RIVALS[QUICK..]));
        quick_line("each its own", &measured(&own, &RIVALS[QUICK..]));
    }
}

/// The proved engine's time for the second passages over that for the first; then the rivals over the proved engine, for the second.
fn compared(known: &[String], first: &[Passage], second: &[Passage]) {
    let (first, second) = (first.iter().collect::<Vec<_>>(), second.iter().collect::<Vec<_>>());
    let ratios = [vec![beside(&first, &second)], measured(&second, &RIVALS[QUICK..]).ratios].concat();
    line(&[known, &two_digits(&ratios)].concat());
}

/// Departures from full windows, by ticks and by cancellations.
fn cancellations() {
    head(&["shared terms", "queries", "a cancellation over a tick"], QUICK..RIVALS.len(), &[]);
    for workload in SHARED {
        for queries in [1, 32] {
            let setting = Setting { capacity: 256, queries, workload };
            let departing = |by| each_its_own(|seed| Passage::departing(setting, DEPARTURES, by, seed));
            compared(&[workload.name.into(), queries.to_string()], &departing(Departure::Tick), &departing(Departure::Cancel));
        }
    }
}

/// Messages with equal scores, without an urgency and with one.
fn ties() {
    head(&["N", "queries", "with urgencies over without"], QUICK..RIVALS.len(), &[]);
    for capacity in [16, 256] {
        for queries in [1, 32] {
            let setting = Setting { capacity, queries, workload: TIED };
            let tied = |forms| each_its_own(|seed| Passage::tied(setting, BOARD_MESSAGES, forms, seed));
            compared(&[capacity.to_string(), queries.to_string()], &tied(UNGRADED), &tied(GRADED));
        }
    }
}

/// Prints all tables, and writes the plot to the path.
pub fn print(path: &str) {
    println!("Ratios: the rival's time over the proved engine's for the same frames, so ABOVE 1 THE PROVED ENGINE IS FASTER.\n");
    let rows = all_settings();
    println!("\nN 256, with the methods by tables:\n");
    largest(&rows);
    println!("\nThe classroom: {BOARDS} engines, few shared terms, N 256, a message to each in turn:\n");
    classroom();
    println!("\nDepartures from full windows: {BOARDS} engines, N 256, {DEPARTURES} messages from each:\n");
    cancellations();
    println!("\nEqual scores ranked by urgency: {BOARDS} engines, {} terms in all, each counted once:\n", TIED.terms);
    ties();
    println!("\nA search asked for once, N 256; the ratio is the other way's time over the search's:\n");
    search::print();
    println!("\nA closeness, N 256; the ratio is the plain way's time over the proved one's:\n");
    closeness::print();
    println!("\nA screen; the ratio is the other way's time over the proved one's:\n");
    screens::print();
    println!("\nThe impacts of a message alone, in plain Rust; the ratio is the way's time over that of the unit and the table:\n");
    impacts::print();
    println!("\nReading a frame alone; the ratio is the plain reader's time over the proved one's:\n");
    reading::print();
    std::fs::write(path, plot::svg(&rows)).unwrap_or_else(|e| panic!("{path}: {e}"));
}

/// The proved engine beside that of an earlier archive: one engine with each workload that both take, and the classroom with the same messages.
pub fn beside_earlier(library: &str) {
    Earlier::load(library);
    println!("The earlier engine's time over this one's, N 256, so ABOVE 1 THIS ENGINE IS FASTER.\n");
    println!("| engines | shared terms | queries | messages per second for each | ratio |\n|---|---|---|---|---|");
    for (engines, messages) in [(1, MESSAGES), (BOARDS as usize, BOARD_MESSAGES)] {
        for workload in SHARED {
            for queries in [1, 32] {
                let passage = Passage::new(Setting { capacity: 256, queries, workload }, messages, SEED);
                let row = measured(&vec![&passage; engines], &[EARLIER]);
                println!("| {engines} | {} | {queries} | {:.0} | {:.2} |", workload.name, row.messages_per_second, row.ratios[0]);
            }
        }
    }
}
