#!/usr/bin/env python3
"""Counts the tasks that workers put and take in lanes in a second, for 1, 2 and 4 workers, in both forms.

    bench/lanes.py [TIMES]

Each worker puts 16 tasks, and then takes a task and puts it back, TIMES times (200,000). A figure is the number of takes that gave a task, over
the time of the run, in thousands a second. That build looks for broken conditions as it runs, so the figures serve to compare the two forms and the
numbers of workers. The program below stands here as text, since it is no part of the repository: it is built, and not proved, by
`rt try` in a folder of its own, with a copy of the repository's crates.
"""
import os
import shutil
import subprocess
import sys
import tempfile

TOP = os.path.dirname(os.path.dirname(os.path.abspath(__file__)))

LINE = "lane_speed: type_rules core_steps inputs_text source_reader task_state priority_deques\n"

PROGRAM = r"""
#![tactic(auto)]

use inputs_text::read_inputs;
use priority_deques::{Lanes, SharedLanes, StealLanes};
use source_reader::read_source;
use std::alloc::{AllocError, Global};
use std::io;
use std::sync::Wait;
use std::thread;
use std::thread::Threads;
use std::time::Instant;
use task_state::Task;
use type_rules::{Job, check};

const TEXT: &[u8] = b"priority bg; priority ui; order bg < ui; main at ui : int { ret 1 }";
const TIMES: u64 = TIMES_HERE;

fn work<R: Wait, L: Lanes>(rt: &R, mut end: L) -> u64 {
    let mut taken = 0;
    for _ in 0..TIMES {
        if let Some(pick) = end.take(rt) {
            taken += 1;
            if end.put(rt, pick.task).is_err() {
                break;
            }
        }
    }
    taken
}

fn run<R: Threads + Wait + Sync, L: Lanes + Send>(rt: &R, ends: Vec<L>) -> Result<Vec<u64>, AllocError> {
    thread::map_vec(rt, ends, &|end| work(rt, end))
}

fn fill<R: Wait, L: Lanes>(rt: &R, alloc: Global, job: &Job, end: &mut L) {
    for _ in 0..16 {
        if let Ok(task) = Task::root(alloc, job) {
            let _ = end.put(rt, task);
        }
    }
}

fn main(rt: HostRuntime) -> io::Result<()> {
    let alloc = rt.alloc();
    let Ok(program) = read_source(alloc, TEXT) else { return Ok(()) };
    let Ok(inputs) = read_inputs(alloc, b"") else { return Ok(()) };
    let Ok(checked) = check(alloc, program) else { return Ok(()) };
    let job = Job::new(checked, inputs);
    for workers in [1u32, 2, 4] {
        let Ok(mut shared) = SharedLanes::open(alloc, &job, workers) else { return Ok(()) };
        for end in shared.iter_mut() {
            fill(&rt, alloc, &job, end);
        }
        let start = Instant::now(&rt)?;
        let Ok(taken) = run(&rt, shared) else { return Ok(()) };
        let time = start.elapsed(&rt)?.as_millis().max(1) as u64;
        let mut sum = 0;
        for n in taken {
            sum += n;
        }
        println!(rt; "shared, {workers} workers: {} thousand tasks a second", sum / time)?;
        let Ok(mut steal) = StealLanes::open(alloc, &job, workers) else { return Ok(()) };
        for end in steal.iter_mut() {
            fill(&rt, alloc, &job, end);
        }
        let start = Instant::now(&rt)?;
        let Ok(taken) = run(&rt, steal) else { return Ok(()) };
        let time = start.elapsed(&rt)?.as_millis().max(1) as u64;
        let mut sum = 0;
        for n in taken {
            sum += n;
        }
        println!(rt; "stealing, {workers} workers: {} thousand tasks a second", sum / time)?;
    }
    Ok(())
}
"""


def main():
    times = int(sys.argv[1]) if len(sys.argv) > 1 else 200_000
    with tempfile.TemporaryDirectory() as folder:
        crates = os.path.join(folder, "crates")
        shutil.copytree(os.path.join(TOP, "crates"), crates, ignore=shutil.ignore_patterns("out"))
        os.makedirs(os.path.join(crates, "lane_speed", "src"))
        with open(os.path.join(TOP, "crates.txt")) as lines, open(os.path.join(folder, "crates.txt"), "w") as out:
            out.write(lines.read() + LINE)
        with open(os.path.join(TOP, "HANDLES")) as line, open(os.path.join(folder, "HANDLES"), "w") as out:
            out.write(line.read())
        with open(os.path.join(crates, "lane_speed", "src", "main.rt"), "w") as out:
            out.write("//! Times lanes." + PROGRAM.replace("TIMES_HERE", str(times)))
        sys.exit(subprocess.call(["rt", "try", "--seconds", "600"], cwd=os.path.join(crates, "lane_speed")))


if __name__ == "__main__":
    main()
