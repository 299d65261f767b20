#!/usr/bin/env python3
"""Counts the machine instructions that it takes to read the longest script.

    speed/script.py

It needs valgrind and the kit's rt. A small program that reads a script of 209,715 lines `tick` over and over is built,
proved as every program is, in a copy of one crate; it runs for one and for two readings under callgrind, and printed is
the difference of the two counts, and that divided by the number of lines.
"""
import os
import shutil
import subprocess
import sys
import tempfile

sys.path.insert(0, os.path.dirname(os.path.dirname(os.path.realpath(__file__))))
from speed import TOP
from speed.counted import counted

LINES = 209_715

PROGRAM = r"""
//! The longest script is read as often as the word says.
#![tactic(auto)]

use script_text::read;
use std::alloc::{AllocError, Global};
use std::env;
use std::process::ExitCode;

fn ticks(alloc: Global) -> Result<Vec<u8>, AllocError> {
    let mut script = Vec::new(alloc);
    for _ in 0..209_715 {
        script.extend_from_slice(b"tick\n")?;
    }
    Ok(script)
}

fn read_again(alloc: Global, script: &[u8], count: u32) -> bool {
    for _ in 0..count {
        if read(alloc, script).is_err() {
            return false;
        }
    }
    true
}

fn main(rt: HostRuntime) -> ExitCode {
    let alloc = rt.alloc();
    let Ok(words) = env::args(&rt) else {
        return ExitCode::from(2);
    };
    let Some(Ok(count)) = words.last().map(|word| word.parse::<u32>()) else {
        return ExitCode::from(3);
    };
    let Ok(script) = ticks(alloc) else {
        return ExitCode::from(4);
    };
    ExitCode::from(if read_again(alloc, &script, count) { 0 } else { 5 })
}
"""


def built(folder):
    shutil.copytree(f"{TOP}/crates/script_text", f"{folder}/crates/script_text", ignore=shutil.ignore_patterns("out"))
    shutil.copy(f"{TOP}/HANDLES", folder)
    os.makedirs(f"{folder}/crates/script_bench/src")
    with open(f"{folder}/crates/script_bench/src/main.rt", "w") as file:
        file.write(PROGRAM.lstrip())
    with open(f"{folder}/crates.txt", "w") as file:
        file.write("script_text: thiserror\nscript_bench: script_text\n")
    subprocess.run(["rt", "run", "--", "1"], cwd=f"{folder}/crates/script_bench", check=True, stdout=sys.stderr)
    return f"{folder}/crates/script_bench/out/script_bench"


def count(program, readings):
    return counted([program, str(readings)])


def main():
    if len(sys.argv) != 1:
        sys.exit(__doc__)
    with tempfile.TemporaryDirectory() as folder:
        program = built(folder)
        cost = count(program, 2) - count(program, 1)
        print(f"{cost:,}  the longest script", flush=True)
        print(f"{cost / LINES:.1f}  a line", flush=True)


if __name__ == "__main__":
    main()
