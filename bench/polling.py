"""A program in Rattle that times how a node receives datagrams while packets of a schedule were sent: its source.

It stands on the crates, and is none of them. tools/recovering.py lays it out beside a copy of them, and runs it.
"""
import sys

from schedule import TOP

sys.path.append(str(TOP / 'tools'))
import recovering  # noqa: E402

NAME = 'polling'
STANDS_ON = 'cs_base cs_link cs_log cs_script cs_world hex'
SOURCE = r'''
//! Reads the lines of a schedule, and two kinds more. `wait HEX` has a datagram that waits at node 1 once that starts.
//! At `poll N` node 1 receives N datagrams, and a line is written: how many of them are packets that were sent to it,
//! the sum of the numbers of these, and the nanoseconds that it took.
#![tactic(auto)]

use cs_base::{Addr, NodeId};
use cs_link::{CleanGround, CleanLink, Ground, GroundFault, MOST_DATAGRAM};
use cs_log::CleanLog;
use cs_script::{Event, read_line};
use cs_world::World;
use std::alloc::{AllocError, Global};
use std::io::{self, BufRead, BufReader, BufWriter, Write};
use std::process::ExitCode;
use std::rt::{Clock, Runtime};
use std::time::Instant;

const FIRST: u32 = 1;

// Grants links in memory. At that of the first node datagrams wait.
#[derive(Drop)]
struct FedGround {
    ground: CleanGround,
    waiting: Vec<Vec<u8>>,
}

impl FedGround {
    fn new(alloc: Global) -> Self {
        FedGround {
            ground: CleanGround::new(alloc),
            waiting: Vec::new(alloc),
        }
    }

    fn feed(&self, link: &mut CleanLink) -> Result<(), AllocError> {
        for bytes in &self.waiting {
            link.arrive(bytes)?;
        }
        Ok(())
    }
}

impl Ground for FedGround {
    ghost use Rattle.std.proofs.Common.{refl};

    type Wire = CleanLink;

    type Store = CleanLog;

    ghost logs = { λ desk. ⟦<CleanGround as Ground>⟧.logs desk.ground };

    ghost traffic = { λ desk. ⟦<CleanGround as Ground>⟧.traffic desk.ground };

    ghost out = { λ desk. ⟦<CleanGround as Ground>⟧.out desk.ground };

    ghost faults = { λ _. 0 };

    ghost link_faults = { λ _. 0 };

    ghost log_faults = { λ _. 0 };

    ghost taken = { λ desk. ⟦<CleanGround as Ground>⟧.taken desk.ground };

    ghost dry = { λ desk. ⟦<CleanGround as Ground>⟧.dry desk.ground };

    ghost logs_tell = { λ desk store told. refl };

    ghost links_tell = { λ desk wire told. refl };

    fn grant(&mut self, id: NodeId, addr: Addr) -> Result<(CleanLink, CleanLog), GroundFault> {
        let (mut link, log) = self.ground.grant(id, addr)?;
        if id.get() == FIRST {
            self.feed(&mut link)?;
        }
        Ok((link, log))
    }

    fn keep(&mut self, id: NodeId, wire: CleanLink, store: CleanLog) {
        self.ground.keep(id, wire, store);
    }
}

// The datagrams of a poll that are packets, the sum of their numbers, and the time.
#[derive(Drop)]
struct Polled {
    packets: u32,
    sum: u64,
    nanos: u128,
}

fn poll<R: AllocGlobal + Clock>(
    rt: &R,
    world: &mut World<FedGround>,
    datagrams: u32,
) -> Option<Polled> {
    let first = NodeId::new(FIRST)?;
    let mut buffer = vec![in rt.alloc(); 0; MOST_DATAGRAM].ok()?;
    let mut packets: u32 = 0;
    let mut sum: u64 = 0;
    let start = Instant::now(rt).ok()?;
    for _ in 0..datagrams {
        if let Event::Deliver(number) = world.receive(first, &mut buffer).ok()?? {
            packets = packets.saturating_add(1);
            sum = sum.saturating_add(u64::from(number));
        }
    }
    let nanos = start.elapsed(rt).ok()?.as_nanos();
    Some(Polled {
        packets,
        sum,
        nanos,
    })
}

fn happen(
    alloc: Global,
    world: &mut World<FedGround>,
    desk: &mut FedGround,
    line: &str,
) -> Option<()> {
    let event = read_line(alloc, line.as_bytes()).ok()?;
    let mut text = Vec::new(alloc);
    world.step(desk, &event, &mut text).ok()
}

// What is said of a line.
fn told<R: AllocGlobal + Clock>(
    rt: &R,
    world: &mut World<FedGround>,
    desk: &mut FedGround,
    line: &str,
) -> Option<String> {
    let alloc = rt.alloc();
    let mut said = String::new(alloc);
    if let Some(digits) = line.strip_prefix("wait ") {
        desk.waiting.push(hex::decode(alloc, digits).ok()?).ok()?;
    } else if let Some(digits) = line.strip_prefix("poll ") {
        let Polled {
            packets,
            sum,
            nanos,
        } = poll(rt, world, digits.parse().ok()?)?;
        writeln!(said, "{packets} {sum} {nanos}").ok()?;
    } else {
        happen(alloc, world, desk, line)?;
    }
    Some(said)
}

fn tell<R: Runtime + AllocGlobal>(
    rt: &R,
    world: &mut World<FedGround>,
    desk: &mut FedGround,
) -> io::Result<ExitCode> {
    let alloc = rt.alloc();
    let mut out = BufWriter::new(alloc, io::writer(rt))?;
    for line in BufReader::new(alloc, rt.reader())?.lines(alloc) {
        let Some(said) = told(rt, world, desk, line?.as_str()) else {
            return Ok(ExitCode::FAILURE);
        };
        write!(out, "{said}")?;
    }
    out.flush()?;
    Ok(ExitCode::SUCCESS)
}

fn main(rt: HostRuntime) -> io::Result<ExitCode> {
    let mut desk = FedGround::new(rt.alloc());
    let mut world = World::new(rt.alloc());
    let ended = tell(&rt, &mut world, &mut desk);
    world.finish(&mut desk);
    ended
}
'''


def write(folder):
    """Lays out the crates, and the program as one more."""
    recovering.write(folder, NAME, STANDS_ON, SOURCE)


def tried(text):
    """What the program writes, run by `rt try`, or what that complains of."""
    return recovering.tried(text, NAME, STANDS_ON, SOURCE)
