//! Java's ConcurrentSkipListMap, by `SkipList.java`: a process that is asked one line at a time, and has one map.

use crate::front::Part;
use crate::peers::{Sizes, View};
use crate::ranges::{Ranges, Span, Told};
use crate::work::Speeds;
use std::io::{BufRead, BufReader, Write};
use std::process::{Child, ChildStdin, ChildStdout, Command, Stdio};
use std::sync::{LazyLock, Mutex};
use std::time::Duration;

/// The process, which ends once its input does.
struct Java {
    _process: Child,
    input: ChildStdin,
    output: BufReader<ChildStdout>,
}

static JAVA: LazyLock<Mutex<Java>> = LazyLock::new(|| Mutex::new(Java::start()));

impl Java {
    fn start() -> Java {
        let mut command = Command::new("java");
        command.args(["-cp", env!("SKIP_LIST"), "SkipList"]).stdin(Stdio::piped()).stdout(Stdio::piped());
        let mut process = command.spawn().expect("java");
        let (input, output) = (process.stdin.take().expect("its input"), process.stdout.take().expect("its output"));
        Java { _process: process, input, output: BufReader::new(output) }
    }

    fn ask(&mut self, line: &str) -> String {
        let mut answer = String::new();
        writeln!(self.input, "{line}").expect("java is there");
        self.output.read_line(&mut answer).expect("java answers");
        answer
    }
}

/// The numbers that a line is answered by: none if it is another answer.
fn ask(line: &str) -> Option<Vec<u64>> {
    let answer = JAVA.lock().unwrap().ask(line);
    answer.split_whitespace().map(|it| it.parse().ok()).collect()
}

fn ask_for_pair(line: &str) -> Option<(u64, u64)> {
    ask(line).map(|it| (it[0], it[1]))
}

/// The one map of the process.
#[derive(Clone)]
pub struct SkipList;

impl SkipList {
    pub fn start(sizes: Sizes) -> SkipList {
        ask(&format!("start {} {}", sizes.keys, sizes.writers));
        SkipList
    }

    /// As `work::scans`, of a new map.
    pub fn scans(sizes: Sizes, span: Span, interval: Duration) -> Speeds {
        let Sizes { keys, writers, readers, .. } = sizes;
        let line = format!("measure {keys} {writers} {readers} {} {}", span.width(keys), interval.as_nanos());
        let took = ask(&line).expect("what they took");
        let mean = |nanoseconds, answers| (answers > 0).then(|| nanoseconds as f64 / answers as f64);
        Speeds { writers: mean(took[0], took[1]), readers: mean(took[2], took[3]) }
    }

    /// What the front tells of a new map: how long an operation or an insert takes, in nanoseconds of the time of all threads together,
    /// or how many bytes a key does.
    pub fn measure(part: Part, sizes: Sizes, interval: Duration) -> f64 {
        let Sizes { keys, writers, .. } = sizes;
        let line = match part {
            Part::Operations => format!("operate {keys} {writers} {}", interval.as_nanos()),
            Part::Inserts => format!("fill {keys} {writers}"),
            Part::Memory => format!("weigh {keys}"),
            Part::Stops => unreachable!("no thread of Java is stopped"),
        };
        let told = ask(&line).expect("what it took, and of how many");
        told[0] as f64 / told[1] as f64
    }
}

impl View for SkipList {
    fn find(&mut self, key: u64) -> Option<u64> {
        ask(&format!("find {key}")).map(|it| it[0])
    }

    fn insert(&mut self, key: u64, value: u64) -> bool {
        ask(&format!("insert {key} {value}")) == Some(vec![1])
    }

    fn delete(&mut self, key: u64) -> bool {
        ask(&format!("delete {key}")) == Some(vec![1])
    }
}

impl Ranges for SkipList {
    fn range(&mut self, from: u64, upto: u64) -> Told {
        let (count, sum) = ask_for_pair(&format!("range {from} {upto}")).expect("a count and a sum");
        Told { count, sum }
    }

    fn next_at_least(&mut self, key: u64) -> Option<(u64, u64)> {
        ask_for_pair(&format!("next {key}"))
    }

    fn swap(&mut self, key: u64, value: u64) -> Option<u64> {
        ask(&format!("swap {key} {value}")).map(|it| it[0])
    }
}
