//! What was measured, as tables in Markdown and as rows of a file.

#[cfg(tbb)]
use crate::cpp::Template;
use crate::front::Part;
use crate::inserts::Order;
use crate::pauses::{Load, Said};
use crate::peers::Peer;
use crate::ranges::{Span, Way};
use crate::{Case, Kind};
use std::collections::BTreeMap;
use std::fmt::Write;

/// What a number says: of nanoseconds, but for some of `Pauses`, and `BytesAKey`.
#[derive(Clone, Copy, PartialEq, Eq, PartialOrd, Ord)]
pub enum Figure {
    Operation,
    Look,
    Change,
    Add,
    LookMedian,
    Look99,
    LookWorst,
    OperationMedian,
    Operation99,
    OperationWorst,
    /// A key of a range, or a next key.
    Told(Span),
    /// A write without readers.
    Write,
    /// A write beside readers of such ranges.
    WriteBeside(Span),
    /// An insert into a map in which all keys are inserted in such an order.
    Insert(Order),
    /// A turn of a queue: an insert of the next key, and a take of the least one.
    Turn,
    /// What is told of the pauses of a map under such a load.
    Pauses(Load, Said),
    /// How many bytes of memory a map takes for each key.
    BytesAKey,
}

impl Figure {
    pub const OF_LOOKS: [Figure; 3] = [Figure::LookMedian, Figure::Look99, Figure::LookWorst];
    pub const OF_OPERATIONS: [Figure; 3] = [Figure::OperationMedian, Figure::Operation99, Figure::OperationWorst];

    fn name(self) -> String {
        let name = match self {
            Figure::Insert(order) => return format!("{} insert", order.name()),
            Figure::Pauses(load, said) => return format!("{}: {}", load.name(), said.name()),
            Figure::Operation => "operation",
            Figure::Look => "look",
            Figure::Change => "change",
            Figure::Add => "add",
            Figure::LookMedian => "look: median",
            Figure::Look99 => "look: 99 %",
            Figure::LookWorst => "look: worst",
            Figure::OperationMedian => "operation: median",
            Figure::Operation99 => "operation: 99 %",
            Figure::OperationWorst => "operation: worst",
            Figure::Told(Span::Of10) => "key of a range of 10",
            Figure::Told(Span::Of100) => "key of a range of 100",
            Figure::Told(Span::All) => "key of a range of all",
            Figure::Told(Span::Next) => "next key",
            Figure::Write => "write",
            Figure::Turn => "turn",
            Figure::BytesAKey => "bytes a key",
            Figure::WriteBeside(Span::Of10) => "write beside ranges of 10",
            Figure::WriteBeside(Span::Of100) => "write beside ranges of 100",
            Figure::WriteBeside(Span::All) => "write beside ranges of all",
            Figure::WriteBeside(Span::Next) => "write beside next keys",
        };
        name.to_string()
    }

    /// How many digits of such a number are told behind its point.
    fn digits(self) -> usize {
        match self {
            Figure::Pauses(_, Said::Work | Said::Part) => 3,
            _ => 0,
        }
    }

    /// Such a number as a table has it: the worst latencies in milliseconds, and others as the rows have them.
    fn shown(self, number: f64) -> String {
        let whole = number.round_ties_even();
        match self {
            Figure::LookWorst | Figure::OperationWorst => format!("{:.1}", whole / 1e6),
            _ => counted(whole as u64),
        }
    }
}

/// A number with commas.
pub fn counted(number: u64) -> String {
    match number {
        1_000.. => format!("{},{:03}", counted(number / 1_000), number % 1_000),
        _ => number.to_string(),
    }
}

/// The least and the median, or of two in the middle the greater.
fn least_and_median(rounds: &[f64]) -> (f64, f64) {
    let mut sorted = rounds.to_vec();
    sorted.sort_by(f64::total_cmp);
    (sorted[0], sorted[sorted.len() / 2])
}

/// A kind of tables.
struct Form {
    kind: Kind,
    title: &'static str,
    /// The heads of the columns that say what a row is of.
    labels: &'static [&'static str],
}

/// The kinds of which each case is a row of a table, and the titles of these.
const TABLES_OF_CASES: [(Kind, &str); 4] = [
    (Kind::Shared, "An operation on shared keys, in nanoseconds."),
    (Kind::SharedLooks, "A look at a shared key; a change beside it, in nanoseconds."),
    (Kind::Counters, "An add to a counter, in nanoseconds."),
    (Kind::Ends, "A turn of a queue, in nanoseconds of the time of all threads together."),
];

/// What a row of a table is of, and what it shows of each peer, one behind the other: figures of cases by their places.
struct Row {
    labels: Vec<String>,
    shown: Vec<(usize, Figure)>,
}

/// The times of all rounds, of each case by its place, of each peer by its name.
pub struct Record {
    cases: Vec<Case>,
    times: BTreeMap<(usize, Figure, &'static str), Vec<f64>>,
}

impl Record {
    /// A record of these cases.
    pub fn new(cases: Vec<Case>) -> Record {
        Record { cases, times: BTreeMap::new() }
    }

    /// Adds what a round has of a peer in the case at a place.
    pub fn add(&mut self, at: usize, peer: Peer, figures: Vec<(Figure, f64)>) {
        for (figure, time) in figures {
            self.times.entry((at, figure, peer.name())).or_default().push(time);
        }
    }

    fn median(&self, at: usize, figure: Figure, peer: Peer) -> Option<f64> {
        Some(least_and_median(self.times.get(&(at, figure, peer.name()))?).1)
    }

    /// The median of how many times as long as another a peer took in the same round, by their names.
    fn ratio(&self, at: usize, figure: Figure, peer: &'static str, other: &'static str) -> Option<f64> {
        let times = |name| self.times.get(&(at, figure, name));
        let ratios: Vec<f64> = times(peer)?.iter().zip(times(other)?).map(|(time, beside)| time / beside).collect();
        Some(least_and_median(&ratios).1)
    }

    /// One row for each figure of each peer in each case: the least and the median of its rounds, the medians of its ratios within a round,
    /// to the reference, and to the library before if that was measured, and the times of all rounds.
    pub fn rows(&self) -> String {
        let mut rows = String::from("kind,keys,writers,readers,peer,figure,least,median,reference,to reference,to before,rounds\n");
        for ((at, figure, peer), rounds) in &self.times {
            let Case { kind, sizes } = self.cases[*at];
            let reference = kind.reference().map_or("", Peer::name);
            let reference = if self.times.contains_key(&(*at, *figure, reference)) { reference } else { "" };
            let before = kind.peers().into_iter().find(|it| it.name() == *peer).and_then(Peer::before).map_or("", Peer::name);
            let ratio = |other| self.ratio(*at, *figure, peer, other).map_or(String::new(), |it| format!("{it:.2}"));
            let (least, median) = least_and_median(rounds);
            let digits = figure.digits();
            let all = rounds.iter().map(|it| format!("{it:.digits$}")).collect::<Vec<_>>().join(" ");
            let _ = writeln!(
                rows,
                "{},{},{},{},{peer},{},{least:.digits$},{median:.digits$},{reference},{},{},{all}",
                kind.name(),
                sizes.keys,
                sizes.writers,
                sizes.readers,
                figure.name(),
                ratio(reference),
                ratio(before)
            );
        }
        rows
    }

    /// The cases of a kind, with their places.
    fn cases_of(&self, kind: Kind) -> impl Iterator<Item = (usize, Case)> + '_ {
        self.cases.iter().copied().enumerate().filter(move |(_, case)| case.kind == kind)
    }

    /// The peers of a kind of which this was measured.
    fn peers(&self, kind: Kind, rows: &[Row]) -> Vec<Peer> {
        let has = |peer: Peer| rows.iter().flat_map(|row| &row.shown).any(|(at, figure)| self.median(*at, *figure, peer).is_some());
        kind.peers().into_iter().filter(|peer| has(*peer)).collect()
    }

    /// A table as docs/SPEED.md has them, if anything was measured of it: the medians of each peer's times, and of the ratios. It has no row
    /// of cases that were not asked for.
    fn table(&self, form: Form, file: &str, rows: Vec<Row>) -> String {
        let peers = self.peers(form.kind, &rows);
        if peers.is_empty() {
            return String::new();
        }
        let compared = form.kind.compared();
        let names = peers.iter().map(|peer| form.kind.title(*peer));
        let names = names.chain(compared.iter().map(|(one, other)| format!("{} to {}", form.kind.title(*one), form.kind.title(*other))));
        let heads: Vec<String> = form.labels.iter().map(|it| it.to_string()).chain(names).collect();
        let mut lines = format!("\n{}\n\n<!-- {file} -->\n\n|{}|\n{}|\n", form.title, heads.join("|"), "|---".repeat(heads.len()));
        for row in rows.into_iter().filter(|row| !row.shown.is_empty()) {
            let times = peers.iter().map(|peer| row.cell(|at, figure| Some(figure.shown(self.median(at, figure, *peer)?))));
            let ratio =
                |(one, other): &(Peer, Peer)| row.cell(|at, figure| Some(format!("{:.2}", self.ratio(at, figure, one.name(), other.name())?)));
            let cells: Vec<String> = row.labels.iter().cloned().chain(times).chain(compared.iter().map(ratio)).collect();
            let _ = writeln!(lines, "|{}|", cells.join("|"));
        }
        lines
    }

    /// A table of a kind in which each case is a row.
    fn table_of_cases(&self, kind: Kind, title: &'static str, file: &str) -> String {
        let (labels, figures): (&'static [&'static str], &[Figure]) = match kind {
            Kind::SharedLooks => (&["Keys", "Readers", "Writers"], &[Figure::Look, Figure::Change]),
            Kind::Counters => (&["Keys", "Threads"], &[Figure::Add]),
            Kind::Ends => (&["Keys", "Threads"], &[Figure::Turn]),
            _ => (&["Keys", "Threads"], &[Figure::Operation]),
        };
        let row = |(at, Case { sizes, .. }): (usize, Case)| {
            let readers = labels.contains(&"Readers").then_some(sizes.readers);
            let threads = [Some(sizes.keys), readers, Some(sizes.writers)];
            Row { labels: threads.into_iter().flatten().map(counted).collect(), shown: figures.iter().map(|figure| (at, *figure)).collect() }
        };
        let rows = self.cases_of(kind).map(row).collect();
        self.table(Form { kind, title, labels }, file, rows)
    }

    /// All tables, for figures that stand in such a file.
    pub fn tables(&self, file: &str) -> String {
        let of_cases = TABLES_OF_CASES.map(|(kind, title)| self.table_of_cases(kind, title, file));
        let others = [
            self.table_of_front(file),
            self.table_of_latencies(file),
            self.table_of_ranges(file),
            self.table_of_writes(file),
            self.table_of_inserts(file),
            self.table_of_pauses(Kind::Inserts, file),
            self.table_of_pauses(Kind::Ends, file),
            self.table_of_pauses(Kind::Pauses, file),
        ];
        [of_cases.concat(), others.concat()].concat()
    }

    /// The places of the cases of these kinds with so many keys.
    fn places(&self, kinds: &[Kind], keys: u64) -> Vec<usize> {
        let cases = kinds.iter().flat_map(|kind| self.cases_of(*kind));
        cases.filter(|(_, case)| case.sizes.keys == keys).map(|(at, _)| at).collect()
    }

    /// The small table of all parts of the front, of which each case is a row.
    fn table_of_front(&self, file: &str) -> String {
        let row = |part: Part, (at, case): (usize, Case)| Row { labels: vec![part.label(case.sizes)], shown: vec![(at, part.figure())] };
        let rows = Part::ALL.into_iter().flat_map(|part| self.cases_of(Kind::Front(part)).map(move |case| row(part, case))).collect();
        let title = "The maps of this library beside others: each time in nanoseconds is of the time of all threads together.";
        self.table(Form { kind: Kind::Front(Part::Operations), title, labels: &[""] }, file, rows)
    }

    fn table_of_latencies(&self, file: &str) -> String {
        let row = |figure: Figure, name: &str, keys: u64| Row {
            labels: vec![format!("{name}, {} keys, ms", counted(keys))],
            shown: self.places(&[Kind::Running, Kind::Stopped], keys).into_iter().map(|at| (at, figure)).collect(),
        };
        let of = |figure, name| Kind::Running.keys().iter().map(move |keys| row(figure, name, *keys));
        let rows = of(Figure::LookWorst, "look").chain(of(Figure::OperationWorst, "operation")).collect();
        let title = "The worst latency beside a writer without pause; beside one that is stopped at times, in milliseconds.";
        self.table(Form { kind: Kind::Running, title, labels: &[""] }, file, rows)
    }

    /// The rows of ranges: of each number of keys those that are asked for, with figures of such cases.
    fn rows_of_ranges(&self, lines: &[(&str, Figure)]) -> Vec<Row> {
        let row = |keys: u64, (name, figure): (&str, Figure)| Row {
            labels: vec![counted(keys), name.to_string()],
            shown: self.places(&[Kind::Ranges], keys).into_iter().map(|at| (at, figure)).collect(),
        };
        Kind::Ranges.keys().iter().flat_map(|keys| lines.iter().map(move |line| row(*keys, *line))).collect()
    }

    fn table_of_ranges(&self, file: &str) -> String {
        let lines = ["10", "100", "all", "next key"].into_iter().zip(Span::ALL.map(Figure::Told)).collect::<Vec<_>>();
        let title = "A key of a range, or a next key, in nanoseconds: alone; beside three writers.";
        let form = Form { kind: Kind::Ranges, title, labels: &["Keys", "Range"] };
        self.table(form, file, self.rows_of_ranges(&lines))
    }

    fn table_of_writes(&self, file: &str) -> String {
        let names = ["ranges of 10", "ranges of 100", "ranges of all", "next keys"];
        let beside = names.into_iter().zip(Span::ALL.map(Figure::WriteBeside));
        let lines: Vec<_> = [("no range", Figure::Write)].into_iter().chain(beside).collect();
        let title = "A write by one of three threads, in nanoseconds, beside a thread that asks for such ranges.";
        let form = Form { kind: Kind::Ranges, title, labels: &["Keys", "Beside"] };
        self.table(form, file, self.rows_of_ranges(&lines))
    }

    fn table_of_inserts(&self, file: &str) -> String {
        let row = |(at, Case { sizes, .. }): (usize, Case), order: Order| Row {
            labels: vec![counted(sizes.keys), counted(sizes.writers), order.name().to_string()],
            shown: vec![(at, Figure::Insert(order))],
        };
        let rows = self.cases_of(Kind::Inserts).flat_map(|case| Order::ALL.map(|order| row(case, order))).collect();
        let title = "An insert into a map that was empty, in nanoseconds of the time of all threads together.";
        let form = Form { kind: Kind::Inserts, title, labels: &["Keys", "Threads", "Order"] };
        self.table(form, file, rows)
    }

    /// What is told of the pauses of the one map in the cases of a kind, if they were measured: a row for each load.
    fn table_of_pauses(&self, kind: Kind, file: &str) -> String {
        let (title, columns): (_, &[Said]) = match kind {
            Kind::Inserts => ("The renewals and pauses of the one map while it is filled so.", &Said::OF_INSERTS),
            Kind::Ends => ("The renewals and pauses of the one map while it is such a queue.", &Said::OF_INSERTS),
            _ => ("The renewals and pauses of the one map while four threads work without pause.", &Said::OF_CHANGES),
        };
        let told = |at, load, said| self.median(at, Figure::Pauses(load, said), Peer::OneMap);
        let cases = self.cases_of(kind).flat_map(|case| Load::ALL.map(|load| (case, load)));
        let mut lines = String::new();
        for ((at, Case { sizes, .. }), load) in cases.filter(|((at, _), load)| told(*at, *load, Said::Renewals).is_some()) {
            let cells = columns.iter().map(|said| told(at, load, *said).map_or(String::new(), |it| said.shown(it)));
            let labels = [counted(sizes.keys), counted(sizes.writers), load.name().to_string()];
            let _ = writeln!(lines, "|{}|", labels.into_iter().chain(cells).collect::<Vec<_>>().join("|"));
        }
        if lines.is_empty() {
            return lines;
        }
        let heads: Vec<_> = ["Keys", "Threads", "Load"].into_iter().chain(columns.iter().map(|said| said.head())).collect();
        format!("\n{title}\n\n<!-- {file} -->\n\n|{}|\n{}|\n{lines}", heads.join("|"), "|---".repeat(heads.len()))
    }
}

impl Said {
    const OF_INSERTS: [Said; 5] = [Said::Renewals, Said::Work, Said::Part, Said::Longest, Said::Sections];
    const OF_CHANGES: [Said; 8] =
        [Said::ChangesASecond, Said::Renewals, Said::Work, Said::Part, Said::Mean, Said::Longest, Said::Sections, Said::Cards];

    /// The head of its column.
    fn head(self) -> &'static str {
        match self {
            Said::ChangesASecond => "Changes a second",
            Said::Renewals => "Renewals",
            Said::Work => "Work on renewals, % of a processor",
            Said::Part => "Time in pauses, %",
            Said::Mean => "Mean pause",
            Said::Longest => "Longest pause",
            Said::Sections => "Sections",
            Said::Cards => "Cards",
        }
    }

    /// A number as its column has it.
    fn shown(self, number: f64) -> String {
        let whole = number.round_ties_even();
        match self {
            Said::Work | Said::Part => format!("{number:.2}"),
            Said::Mean | Said::Longest => format!("{:.2} ms", whole / 1e6),
            _ => counted(whole as u64),
        }
    }
}

impl Row {
    /// The cell of a peer: what is shown of it, one behind the other, or a dash if that is nothing.
    fn cell(&self, show: impl Fn(usize, Figure) -> Option<String>) -> String {
        let shown: Vec<_> = self.shown.iter().filter_map(|(at, figure)| show(*at, *figure)).collect();
        if shown.is_empty() { "-".to_string() } else { shown.join("; ") }
    }
}

impl Kind {
    /// The peers whose ratios within a round a table shows, each with the one that it is compared with.
    fn compared(self) -> Vec<(Peer, Peer)> {
        if matches!(self, Kind::Running | Kind::Stopped | Kind::Front(_)) {
            return Vec::new();
        }
        let ours = self.ours();
        let measured = |peer: &Peer| self.peers().contains(peer);
        let before = ours.before().filter(measured);
        let to_reference = self.reference().into_iter().flat_map(|reference| {
            let [reusing, one_map] = [Peer::Reusing, Peer::OneMap].map(|it| Some(it).filter(|it| *it != ours));
            let compared = [Some(ours), before, reusing, one_map, Some(Peer::Bare)].into_iter().flatten().filter(measured);
            compared.map(move |peer| (peer, reference))
        });
        let of_reuse = Some((Peer::Reusing, ours)).filter(|(reusing, _)| measured(reusing));
        to_reference.chain(before.map(|before| (ours, before))).chain(of_reuse).collect()
    }

    /// What a table of this kind calls a peer.
    fn title(self, peer: Peer) -> String {
        let ours = self.ours();
        let name = match peer {
            Peer::OneMap | Peer::Ranging(Way::OneMap) => "One map",
            Peer::Reusing => "Reusing",
            _ if peer == ours => "elltree",
            _ if Some(peer) == ours.before() => "Before",
            Peer::Ranging(Way::Array) => "Array",
            Peer::Bare | Peer::Ranging(Way::Bare) => "Bare atomics",
            Peer::Private => "Private maps",
            #[cfg(tbb)]
            Peer::Cpp(Template::Hash) => "TBB hash map, unordered",
            _ => peer.name(),
        };
        name.replace("Mutex", "`Mutex`").replace("RwLock", "`RwLock`")
    }
}
