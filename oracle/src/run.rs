//! Runs cases of a kind: many, one alone, or as lines of the dump.

use crate::document::{Document, InRust};
use crate::kinds::waits::Waits;
use crate::kinds::Kind;
use crate::port::{Called, Reply};
use crate::random::Random;
use crate::reference::calls::{self, Rust};
use std::collections::{BTreeMap, BTreeSet, HashMap, HashSet};
use std::fmt;
use std::time::{Duration, Instant};

pub struct Options {
    pub seed: u64,
    /// The first case.
    pub from: u64,
    pub rounds: u64,
    pub seconds: Option<f64>,
    /// Without it only document 01 and the Rust are compared.
    pub port: bool,
}

/// Failing cases shown before a kind is given up.
const FAILURES_SHOWN: u64 = 3;

/// What a run counted.
pub struct Tally {
    kind: &'static str,
    /// Whose words the document's side has, and has the Rust such an operation?
    words: &'static str,
    in_rust: bool,
    port: bool,
    rounds: u64,
    /// Values by class.
    values: BTreeMap<&'static str, u64>,
    /// Rows: what they are in the Rust, number, cause.
    rows: BTreeMap<(InRust, u64, &'static str), u64>,
    /// Inside the equality, but the Rust was not asked: what it does there is not in its text.
    not_shown: u64,
    /// Waits of the walk by what they name.
    waits: Waits,
    /// What else was told apart.
    situations: BTreeMap<&'static str, u64>,
    pub failures: u64,
    time: Duration,
}

impl Tally {
    fn count<K: Kind>(&mut self, input: &K::Input, document: &Document<K::Value>) {
        self.rounds += 1;
        for situation in K::situations(input, document) {
            *self.situations.entry(situation).or_default() += 1;
        }
        if document.inside() && K::not_shown(input) {
            self.not_shown += 1;
            return;
        }
        match document {
            Document::Value(value) => *self.values.entry(K::class(input, value)).or_default() += 1,
            Document::Row(row, _) => {
                *self.rows.entry((row.rust, row.number, row.cause)).or_default() += 1;
                K::count_wait(input, row, &mut self.waits);
            }
        }
    }

    fn rows(&self, rust: InRust) -> (u64, String) {
        let rows = self.rows.iter().filter(|(row, _)| row.0 == rust);
        let text: Vec<String> = rows
            .clone()
            .map(|((_, number, cause), count)| format!("row {number} {cause}: {count}"))
            .collect();
        (rows.map(|(_, count)| count).sum(), text.join("; "))
    }

    /// How many values, and by class where there are several.
    fn values(&self) -> (u64, String) {
        let values = self.values.values().sum();
        let classes = counts(&self.values);
        (values, if self.values.len() > 1 { format!(" ({classes})") } else { String::new() })
    }

    /// Each row in one line, whatever it is in the Rust: for a kind that has most of them.
    fn numbers(&self) -> String {
        let mut numbers: BTreeMap<u64, u64> = BTreeMap::new();
        for ((_, number, _), count) in &self.rows {
            *numbers.entry(*number).or_default() += count;
        }
        format!("  rows reached, number and count: {}\n", counts(&numbers))
    }

    fn with_rust(&self) -> String {
        let (down, down_text) = self.rows(InRust::TurnedDown);
        let (waits, waits_text) = self.rows(InRust::Waits);
        let (alone, alone_text) = self.rows(InRust::Outside);
        let (values, by_class) = self.values();
        let mut text = format!("  compared with the Rust: {}\n", values + down + waits);
        text += &format!("    both answer: {values}{by_class}\n");
        if down > 0 {
            text += &format!("    both turn down, number from document 01: {down} ({down_text})\n");
        }
        if waits > 0 {
            text += &format!("    both wait: {waits} ({waits_text})\n{}", self.numbers());
        }
        text += &self.waits.to_string();
        if alone > 0 {
            text += &format!("  compared with document 01 alone: {alone} ({alone_text})\n");
        }
        if self.not_shown > 0 {
            let not_shown = self.not_shown;
            text += &format!("  the Rust not asked, ckb-types' epoch is not in the text: {not_shown}\n");
        }
        text
    }

    /// Of a kind that the Rust does not have.
    fn without_rust(&self) -> String {
        let (values, by_class) = self.values();
        let (down, down_text) = self.rows(InRust::Outside);
        format!(
            "  not in the Rust; compared with {} alone: {}\n    both answer: {values}{by_class}\n    both turn down: \
             {down} ({down_text})\n{}",
            self.words,
            values + down,
            self.numbers()
        )
    }
}

/// Each with its count.
fn counts<T: fmt::Display>(of: &BTreeMap<T, u64>) -> String {
    let counts: Vec<String> = of.iter().map(|(what, count)| format!("{what}: {count}")).collect();
    counts.join("; ")
}

impl fmt::Display for Tally {
    fn fmt(&self, f: &mut fmt::Formatter<'_>) -> fmt::Result {
        let port = match (self.port, self.in_rust) {
            (true, _) => "",
            (false, true) => ", THE PORT WAS NOT CALLED",
            (false, false) => ", NOTHING WAS COMPARED",
        };
        let seconds = self.time.as_secs_f64();
        writeln!(
            f,
            "{}: {} rounds in {seconds:.1} s, {} failed{port}",
            self.kind, self.rounds, self.failures
        )?;
        let text = if self.in_rust { self.with_rust() } else { self.without_rust() };
        write!(f, "{text}")?;
        if !self.situations.is_empty() {
            writeln!(f, "  situations: {}", counts(&self.situations))?;
        }
        Ok(())
    }
}

/// The input of a case: first the edges, then the grid, then random ones.
pub fn input<K: Kind>(edges: &[K::Input], seed: u64, case: u64) -> K::Input {
    let count = edges.len() as u64;
    if case < count {
        edges[case as usize].clone()
    } else if case - count < K::grid_size() {
        K::grid(case - count)
    } else {
        K::random(&mut Random::of(seed, K::NAME, case))
    }
}

/// The answers of the three sides to one input.
struct Answers<V> {
    document: Document<V>,
    /// None where the case is outside the equality, or not shown.
    rust: Option<Rust<V>>,
    /// None where the port was not called.
    port: Option<Called<V>>,
    /// What else of the Rust was held against document 01.
    further: Result<(), &'static str>,
}

fn answers<K: Kind>(input: &K::Input, seed: u64, case: u64, port: bool) -> Answers<K::Value> {
    let document = K::document(input);
    let with_rust = K::with_rust(input, &document);
    Answers {
        rust: with_rust.then(|| calls::caught(|| K::rust(input))),
        port: port.then(|| K::port(input, &mut Random::of(seed, K::EXPORT, case))),
        further: match with_rust {
            true => calls::caught_or(Err("the Rust panics"), || K::further(input)),
            false => Ok(()),
        },
        document,
    }
}

impl<V: PartialEq> Answers<V> {
    /// What is wrong, if anything. `words` is whose the document's side are.
    fn faults(&self, words: &str) -> Vec<String> {
        let mut faults: Vec<String> = vec![];
        let rust_as_document = match (&self.rust, &self.document) {
            (None, _) => true,
            (Some(Rust::Value(a)), Document::Value(b)) => a == b,
            (Some(Rust::TurnedDown), Document::Row(row, _)) => row.rust == InRust::TurnedDown,
            (Some(Rust::Wait(wait)), Document::Row(row, _)) => {
                row.rust == InRust::Waits && wait.is(row.number)
            }
            _ => false,
        };
        if let Some(Rust::NotModelled(_)) = &self.rust {
            faults.push("the Rust's text hands a stand-in what no document describes".to_string());
        } else if !rust_as_document {
            faults.push(format!("the Rust parts from {words}"));
        }
        faults.extend(self.further.err().map(str::to_string));
        let Some(port) = &self.port else {
            return faults;
        };
        let Ok(port) = port else {
            faults.push("the port broke the calling convention".to_string());
            return faults;
        };
        let port_as_document = match (port, &self.document) {
            (Reply::Value(a), Document::Value(b)) => a == b,
            (Reply::Refused { number, place }, Document::Row(row, at)) => {
                *number == row.number && place == at
            }
            _ => false,
        };
        if !port_as_document {
            faults.push(format!("the port parts from {words}"));
        }
        let port_as_rust = match (port, &self.rust) {
            (_, None | Some(Rust::NotModelled(_))) => true,
            (Reply::Value(a), Some(Rust::Value(b))) => a == b,
            (Reply::Refused { .. }, Some(Rust::TurnedDown)) => true,
            (Reply::Refused { number, .. }, Some(Rust::Wait(wait))) => wait.is(*number),
            _ => false,
        };
        if !port_as_rust {
            faults.push("the port parts from the Rust".to_string());
        }
        faults
    }

    fn show<K: Kind<Value = V>>(&self, input: &K::Input) -> String {
        let document = match &self.document {
            Document::Value(value) => K::show_value(value),
            Document::Row(row, place) => format!("refused {} at {place} ({})", row.number, row.cause),
        };
        let rust = match &self.rust {
            None if !K::IN_RUST => "has no such operation".to_string(),
            None => "not asked: outside the equality, or not shown by its text".to_string(),
            Some(Rust::Value(value)) => K::show_value(value),
            Some(Rust::TurnedDown) => "turned down".to_string(),
            Some(Rust::Wait(wait)) => wait.to_string(),
            Some(Rust::Panicked(text)) => format!("panic: {text}"),
            Some(Rust::NotModelled(n)) => format!("not shown: {} was handed {}", n.what, n.handed),
        };
        let port = match &self.port {
            None => "not called".to_string(),
            Some(Err(fault)) => fault.clone(),
            Some(Ok(Reply::Value(value))) => K::show_value(value),
            Some(Ok(Reply::Refused { number, place })) => format!("refused {number} at {place}"),
        };
        let output = match K::dump_output(input) {
            0 => String::new(),
            length => format!(", output buffer of {length} bytes"),
        };
        let (input, words) = (K::show_input(input), format!("{}:", K::WORDS));
        format!(
            "  input:       {input}{output}\n  {words:12} {document}\n  the Rust:    {rust}\n  the port:    {port}"
        )
    }
}

/// The class of a value, or the number of a row.
fn class<K: Kind>(input: &K::Input, document: &Document<K::Value>) -> String {
    match document {
        Document::Value(value) => K::class(input, value).to_string(),
        Document::Row(row, _) => row.number.to_string(),
    }
}

/// The numbers, causes and classes that the document answers in the first cases, and their situations.
pub fn reached<K: Kind>(cases: u64) -> BTreeSet<String> {
    let edges = K::edges();
    let mut reached = BTreeSet::new();
    for case in 0..cases {
        let input = input::<K>(&edges, 1, case);
        let document = K::document(&input);
        reached.insert(class::<K>(&input, &document));
        if let Document::Row(row, _) = &document {
            reached.insert(row.cause.to_string());
        }
        reached.extend(K::situations(&input, &document).into_iter().map(str::to_string));
    }
    reached
}

/// The waits of the walk that document 01 answers in the first cases.
pub fn waits<K: Kind>(cases: u64) -> Waits {
    let edges = K::edges();
    let mut waits = Waits::default();
    for case in 0..cases {
        let input = input::<K>(&edges, 1, case);
        if let Document::Row(row, _) = K::document(&input) {
            K::count_wait(&input, &row, &mut waits);
        }
    }
    waits
}

pub fn compare<K: Kind>(options: &Options) -> Tally {
    let start = Instant::now();
    let mut tally = Tally {
        kind: K::NAME,
        words: K::WORDS,
        in_rust: K::IN_RUST,
        port: options.port,
        rounds: 0,
        values: BTreeMap::new(),
        rows: BTreeMap::new(),
        not_shown: 0,
        waits: Waits::default(),
        situations: BTreeMap::new(),
        failures: 0,
        time: Duration::ZERO,
    };
    let (mut parted, mut not_modelled) = (0, 0);
    let edges = K::edges();
    for case in options.from..options.from.saturating_add(options.rounds) {
        let input = input::<K>(&edges, options.seed, case);
        let answers = answers::<K>(&input, options.seed, case, options.port);
        tally.count::<K>(&input, &answers.document);
        let faults = answers.faults(K::WORDS);
        if !faults.is_empty() {
            tally.failures += 1;
            // An answer that is not modelled tells nothing about values: it is shown once, and others are looked for.
            let (shown, limit) = match answers.rust {
                Some(Rust::NotModelled(_)) => (&mut not_modelled, 1),
                _ => (&mut parted, FAILURES_SHOWN),
            };
            *shown += 1;
            if *shown <= limit {
                let flag = if options.port { "" } else { " --no-port" };
                println!("FAILED: oracle one {} {} {case}{flag}", K::NAME, options.seed);
                println!("{}\n  because {}", answers.show::<K>(&input), faults.join(", "));
            }
            if parted == FAILURES_SHOWN {
                println!("{}: given up after {FAILURES_SHOWN} failing cases", K::NAME);
                break;
            }
        }
        let check_time = tally.rounds % 64 == 0;
        if check_time && options.seconds.is_some_and(|limit| start.elapsed().as_secs_f64() >= limit) {
            break;
        }
    }
    tally.time = start.elapsed();
    tally
}

/// Runs one case and prints all answers. True where they agree.
pub fn one<K: Kind>(seed: u64, case: u64, port: bool) -> bool {
    let input = input::<K>(&K::edges(), seed, case);
    let answers = answers::<K>(&input, seed, case, port);
    let faults = answers.faults(K::WORDS);
    println!("{} case {case} of seed {seed}\n{}", K::NAME, answers.show::<K>(&input));
    match faults.is_empty() {
        true => println!("  agreed"),
        false => println!("  because {}", faults.join(", ")),
    }
    faults.is_empty()
}

/// A line `kind inputs = answer` of the dump with the Rust's answer, and what it is alike with. Of a kind that is not in the
/// Rust it has the document's. A row is told by document
/// 01's number and place, and the Rust has to turn it down or wait too where it can be asked.
fn line<K: Kind>(input: &K::Input) -> Option<(String, String)> {
    let document = K::document(input);
    let class = class::<K>(input, &document);
    let rust = K::with_rust(input, &document).then(|| calls::caught(|| K::rust(input)));
    // Waits of the walk are alike, as they are in the Rust.
    let alike = match &rust {
        Some(Rust::Wait(wait)) => wait.to_string(),
        _ => class,
    };
    let answer = match (rust, document) {
        (Some(Rust::Value(value)), _) => format!("{} {}", K::DUMP_FRONT, K::show_value(&value)),
        (None, Document::Value(value)) if !K::IN_RUST => {
            format!("{} {}", K::DUMP_FRONT, K::show_value(&value))
        }
        // The status, and of the answer buffer number and place.
        (None, Document::Row(row, place)) if K::DUMP_ROWS => format!("{0} {0} {place}", row.number),
        (Some(Rust::TurnedDown), Document::Row(row, place)) => format!("{0} {0} {place}", row.number),
        (Some(Rust::Wait(wait)), Document::Row(row, place)) if wait.is(row.number) => {
            format!("{0} {0} {place}", row.number)
        }
        _ => return None,
    };
    let output = K::dump_output(input);
    Some((alike, format!("{} {output} {} = {answer}", K::DUMP_NAME, K::show_input(input))))
}

/// The lines of a kind: the edges first, then random inputs, of which so many are alike at most; then those picked.
pub fn dump<K: Kind>(seed: u64) -> Vec<String> {
    let random = (0..).map(|case| K::random_for_dump(&mut Random::of(seed, K::NAME, case)));
    let mut seen = HashSet::new();
    let mut counts: HashMap<String, usize> = HashMap::new();
    let sample = K::edges_for_dump().into_iter().chain(random).filter_map(|input| {
        let (alike, line) = line::<K>(&input)?;
        if !seen.insert(line.clone()) {
            return None;
        }
        let so_far = counts.entry(alike).or_default();
        *so_far += 1;
        (*so_far <= K::DUMP_ALIKE).then_some(line)
    });
    let mut lines: Vec<String> = sample.take(K::DUMP_LINES).collect();
    lines.extend(K::picked_for_dump().iter().filter_map(line::<K>).map(|(_, line)| line));
    lines
}
