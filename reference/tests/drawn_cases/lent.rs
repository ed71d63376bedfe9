//! The cells that a call is lent to write, before and after it.

use reference::rights::RECORD;
use reference::words::{BookWords, LentText, CLOSED, STEPPED};

/// A row of cells: those lent, and some behind them that no call may touch.
#[derive(Clone, Default, PartialEq, Eq)]
pub struct Row<T> {
    pub cells: Vec<T>,
    pub lent: usize,
}

impl<T: Copy> Row<T> {
    /// The cells, cut or filled up to so many lent and two behind.
    pub fn lent(cells: &[T], lent: usize, fill: impl FnMut() -> T) -> Row<T> {
        let mut cells = cells.to_vec();
        cells.resize_with(lent + 2, fill);
        Row { cells, lent }
    }

    pub fn slice(&self) -> &[T] {
        &self.cells[..self.lent]
    }

    pub fn slice_mut(&mut self) -> &mut [T] {
        &mut self.cells[..self.lent]
    }
}

/// All that a call may be lent to write; a row that it is not lent is empty.
#[derive(Clone, Default, PartialEq, Eq)]
pub struct Lent {
    /// The rights file of a write; the other calls only read theirs.
    pub rights: Row<u8>,
    pub counts: Row<u64>,
    pub shortfalls: Row<u64>,
    pub balances: Row<i64>,
    pub lines: Row<i64>,
    pub payments: Row<u64>,
    /// The day table.
    pub table: Row<u8>,
    /// The report of all calls but the events.
    pub report: Row<u64>,
    /// The report of an event.
    pub settled: Row<i64>,
    pub text: Row<u8>,
}

/// What a call gave: its refusal and the cells after it.
#[derive(PartialEq, Eq)]
pub struct Given {
    pub refusal: u64,
    pub lent: Lent,
}

/// A row in plain numbers: its name, how many cells are lent, and the cells.
type Plain = (&'static str, usize, Vec<i128>);

fn plain<T: Copy + Into<i128>>(name: &'static str, row: &Row<T>) -> Plain {
    let cells = row.cells.iter().map(|cell| (*cell).into()).collect();
    (name, row.lent, cells)
}

impl Lent {
    pub fn after(&self, call: impl FnOnce(&mut Lent) -> u64) -> Given {
        let mut lent = self.clone();
        let refusal = call(&mut lent);
        Given { refusal, lent }
    }

    pub fn book(&mut self) -> BookWords<'_> {
        self.event_cells().0
    }

    /// What an event is lent to write: the book, the lines and the report.
    pub fn event_cells(&mut self) -> (BookWords<'_>, &mut [i64], &mut [i64]) {
        let book = BookWords {
            counts: self.counts.slice_mut(),
            shortfalls: self.shortfalls.slice_mut(),
            balances: self.balances.slice_mut(),
        };
        (book, self.lines.slice_mut(), self.settled.slice_mut())
    }

    /// What a step and a closing are lent to write: the book, the text, which
    /// has this end, and the report.
    pub fn run_cells(&mut self, end: u64) -> (BookWords<'_>, LentText<'_>, &mut [u64]) {
        let book = BookWords {
            counts: self.counts.slice_mut(),
            shortfalls: self.shortfalls.slice_mut(),
            balances: self.balances.slice_mut(),
        };
        let bytes = self.text.slice_mut();
        let text = LentText { bytes, end };
        (book, text, self.report.slice_mut())
    }

    /// The text alone, written behind this place.
    pub fn text_from(&mut self, end: u64) -> LentText<'_> {
        self.run_cells(end).1
    }

    fn rows(&self) -> [Plain; 9] {
        [
            plain("rights", &self.rights),
            plain("counts", &self.counts),
            plain("shortfalls", &self.shortfalls),
            plain("balances", &self.balances),
            plain("lines", &self.lines),
            plain("payments", &self.payments),
            plain("table", &self.table),
            plain("report", &self.report),
            plain("report of the event", &self.settled),
        ]
    }
}

/// The words of a reader's report; a read's has the first eight.
const STEP_NAMES: [&str; 10] = [
    "owner",
    "source",
    "sink",
    "kind",
    "class",
    "size",
    "first day",
    "last day",
    "next record number",
    "none left",
];

/// The words of a step's report; a closing's has the first two.
const STEPPED_NAMES: [&str; STEPPED] = [
    "too little room",
    "end of the text",
    "refused event's letter",
    "refused event's number",
    "record number",
];

fn cell_name(row: &str, lent: usize, at: usize) -> String {
    let names: &[&str] = match (row, lent) {
        ("counts", _) => &["hours settled", "months closed", "ended mark", "year"],
        ("balances", _) => &["month balance", "year balance"],
        ("report of the event", _) => &["record number", "F", "D"],
        ("report", 3) => &["day", "month", "peak"],
        ("report", 8 | 10) => &STEP_NAMES,
        ("report", CLOSED | STEPPED) => &STEPPED_NAMES,
        _ => &[],
    };
    match (row, names.get(at)) {
        _ if at >= lent => format!("{row} {at}, not lent"),
        (_, Some(name)) => String::from(*name),
        ("shortfalls", _) if at % 2 == 0 => format!("owner {} month shortfall", at / 2),
        ("shortfalls", _) => format!("owner {} year shortfall", at / 2),
        ("table", _) => format!("day {}", at + 1),
        ("rights", _) => format!("record {}, byte {}", at / RECORD, at % RECORD),
        _ => format!("{row} {at}"),
    }
}

/// One line of the table below.
fn table_line(name: &str, cells: [String; 3], mark: &str) -> String {
    let [before, library, second] = cells;
    format!("{name:28}{before:>22}{library:>22}{second:>22}{mark}\n")
}

/// The cells of a row side by side, but for those that are 0 throughout, and of a file
/// those that stay.
fn row_table(rows: [Plain; 3]) -> String {
    let [(name, lent, before), (_, _, library), (_, _, second)] = rows;
    let count = format!("{lent} lent");
    let mut text = table_line(name, [count, String::new(), String::new()], "");
    for (at, before) in before.into_iter().enumerate() {
        let cells = [before, library[at], second[at]];
        let same = library[at] == second[at];
        let mark = if same { "" } else { "  <- differs" };
        let unlisted = if name == "rights" { before } else { 0 };
        if cells != [unlisted; 3] {
            let name = format!("  {}", cell_name(name, lent, at));
            text += &table_line(&name, cells.map(|cell| cell.to_string()), mark);
        }
    }
    text
}

/// The texts below each other, as far as a side has changed them.
fn text_table(before: &Row<u8>, library: &Row<u8>, second: &Row<u8>) -> String {
    let changed = |row: &Row<u8>, at: usize| row.cells[at] != before.cells[at];
    let all = 0..before.cells.len();
    let places = all.filter(|at| changed(library, *at) || changed(second, *at));
    let places: Vec<usize> = places.collect();
    let mut text = format!("text, {} bytes lent: ", before.lent);
    let (Some(first), Some(last)) = (places.first(), places.last()) else {
        return text + "untouched\n";
    };
    text += &format!("bytes {first} to {last} changed\n");
    for (side, row) in [("library", library), ("second calculation", second)] {
        let part = row.cells[*first..=*last].split_inclusive(|byte| *byte == b'\n');
        let lines = part.map(|line| format!("  {}\n", line.escape_ascii()));
        text += &format!("{side}:\n{}", lines.collect::<String>());
    }
    text
}

/// All that was lent to write, and the results side by side.
pub fn table(before: &Lent, library: &Given, second: &Given) -> String {
    let heads = ["lent", "library", "second calculation"].map(String::from);
    let (ours, theirs) = (library.refusal.to_string(), second.refusal.to_string());
    let mut text = table_line("", heads, "");
    text += &table_line("refusal", [String::new(), ours, theirs], "");
    let after = library.lent.rows().into_iter().zip(second.lent.rows());
    for (row, (ours, theirs)) in before.rows().into_iter().zip(after) {
        if !row.2.is_empty() {
            text += &row_table([row, ours, theirs]);
        }
    }
    if !before.text.cells.is_empty() {
        text += &text_table(&before.text, &library.lent.text, &second.lent.text);
    }
    text + "(cells not listed are 0 before and after, or bytes of rights that stay)"
}
