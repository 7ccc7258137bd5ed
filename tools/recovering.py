"""A program in Rattle that lets nodes come back from the logs that it reads: its source, and how it is run.

The program stands on the crates, and is none of them, so that the gate needn't prove it. It is laid out beside a copy
of them, where `rt try` runs it unproved, with each access to memory checked.
"""
import pathlib
import shutil
import subprocess
import tempfile

from rows import TOP

NAME = 'recovering'
STANDS_ON = 'cs_base cs_link cs_log cs_node hex'
SECONDS = 3_600
STEPS = 1
SOURCE = r'''
//! Reads lines of words. The first word of a line is a log, and each other one is what happens then to the node that
//! comes back of it: bytes that come, or `close`, `move` or `again`. For each line one is written: what the node is
//! after each of them, and what is in the log and was sent in the end.
#![tactic(auto)]

use cs_base::Point;
use cs_link::CleanLink;
use cs_log::CleanLog;
use cs_node::{After, State, Why, recover};
use std::alloc::{AllocError, Global};
use std::io::{self, BufRead, BufReader, BufWriter, Write};
use std::process::ExitCode;

type Node = State<CleanLink, CleanLog>;

// The sum of some bytes, by Adler-32.
#[derive(Drop)]
struct Sum {
    low: u32,
    high: u32,
}

impl Sum {
    fn new() -> Self {
        Sum { low: 1, high: 0 }
    }

    fn add(&mut self, bytes: &[u8]) {
        for byte in bytes {
            self.low = self.low.wrapping_add(u32::from(*byte)) % 65_521;
            self.high = self.high.wrapping_add(self.low) % 65_521;
        }
    }

    fn value(&self) -> u32 {
        self.high.wrapping_mul(65_536).wrapping_add(self.low)
    }
}

fn put_why(said: &mut String, why: Why) -> Result<(), AllocError> {
    match why {
        Why::Log => write!(said, "log"),
        Why::Bad(place) => write!(said, "bad {place}"),
        Why::Empty => write!(said, "empty"),
        Why::Memory => write!(said, "memory"),
    }
}

fn put_state(said: &mut String, node: &Node) -> Result<(), AllocError> {
    match node {
        State::Joining(_) => write!(said, "joining"),
        State::Following(node) => {
            let epoch = node.view().epoch();
            write!(said, "member {epoch}")
        }
        State::Leading(node) => {
            let epoch = node.view().epoch();
            write!(said, "leader {epoch}")
        }
        State::Left(_) => write!(said, "departed"),
        State::Stopped(node) => put_why(said, node.why),
    }
}

// The bytes of the log, and the datagrams that were sent: how many, and their sum.
fn put_end(said: &mut String, node: Node) -> Result<(), AllocError> {
    let (link, log) = node.stop();
    let mut logged = Sum::new();
    logged.add(log.as_slice());
    let mut sum = Sum::new();
    for i in 0..link.len() {
        if let Some((addr, bytes)) = link.sent(i) {
            sum.add(&addr.ip());
            sum.add(&addr.port().to_be_bytes());
            sum.add(bytes);
        }
    }
    let (len, count) = (log.as_slice().len(), link.len());
    let (logged, sent) = (logged.value(), sum.value());
    write!(said, ", log {len} {logged}, sent {count} {sent}")
}

fn delivered(node: Node, bytes: &[u8]) -> Node {
    let After { node, note: _ } = match node {
        State::Joining(node) => node.deliver(bytes),
        State::Following(node) => node.deliver(bytes),
        State::Leading(node) => node.deliver(bytes),
        other => return other,
    };
    node
}

fn closed(node: Node) -> Node {
    match node {
        State::Leading(node) => {
            let After { node, note: _ } = node.close();
            node
        }
        other => other,
    }
}

fn moved(node: Node) -> Node {
    match (node, Point::new(1, 2, 3)) {
        (State::Following(node), Some(at)) => {
            let After { node, note: _ } = node.moved(at);
            node
        }
        (other, _) => other,
    }
}

fn again(alloc: Global, node: Node) -> Node {
    let (link, log) = node.stop();
    recover(alloc, link, log)
}

fn after(alloc: Global, node: Node, word: &str) -> Option<Node> {
    if word == "close" {
        Some(closed(node))
    } else if word == "move" {
        Some(moved(node))
    } else if word == "again" {
        Some(again(alloc, node))
    } else {
        let bytes = hex::decode(alloc, word).ok()?;
        Some(delivered(node, &bytes))
    }
}

// What is said of a line.
fn told(alloc: Global, line: &str) -> Option<String> {
    let mut said = String::new(alloc);
    let mut words = line.split(" ");
    let bytes = hex::decode(alloc, words.next()?).ok()?;
    let log = CleanLog::from_slice(alloc, &bytes).ok()?;
    let mut node = recover(alloc, CleanLink::new(alloc), log);
    put_state(&mut said, &node).ok()?;
    for word in words {
        node = after(alloc, node, word)?;
        write!(said, ", ").ok()?;
        put_state(&mut said, &node).ok()?;
    }
    put_end(&mut said, node).ok()?;
    Some(said)
}

fn main(rt: HostRuntime) -> io::Result<ExitCode> {
    let alloc = rt.alloc();
    let mut out = BufWriter::new(alloc, io::writer(&rt))?;
    for line in BufReader::new(alloc, rt.reader())?.lines(alloc) {
        let Some(said) = told(alloc, line?.as_str()) else {
            return Ok(ExitCode::FAILURE);
        };
        writeln!(out, "{said}")?;
    }
    out.flush()?;
    Ok(ExitCode::SUCCESS)
}
'''


def write(folder, name=NAME, stands_on=STANDS_ON, source=SOURCE):
    """Lays out the crates, and this program or another as one more."""
    ignored = shutil.ignore_patterns('out', 'must-fail')
    shutil.copytree(TOP / 'crates', folder / 'crates', ignore=ignored)
    shutil.copy(TOP / 'HANDLES', folder)
    crates = (TOP / 'crates.txt').read_text()
    (folder / 'crates.txt').write_text(f'{crates}{name}: {stands_on}\n')
    sources = folder / 'crates' / name / 'src'
    sources.mkdir(parents=True)
    (sources / 'main.rt').write_text(source.lstrip())


def tried(text, name=NAME, stands_on=STANDS_ON, source=SOURCE):
    """What the program writes, run by `rt try`, or what that complains of."""
    with tempfile.TemporaryDirectory() as room:
        folder = pathlib.Path(room)
        write(folder, name, stands_on, source)
        ran = subprocess.run(['rt', 'try', '--steps', str(STEPS), '--seconds', str(SECONDS)], input=text,
                             cwd=folder / 'crates' / name, capture_output=True, text=True)
    ended = ran.stderr.rstrip().rpartition('\n')[2]
    return ran.stdout if ran.returncode == 0 and ended.startswith('run=ended ') else ran.stderr
