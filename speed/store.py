#!/usr/bin/env python3
"""Counts the machine instructions that the calls on a disk's blocks and files take.

    speed/store.py

It needs valgrind and the kit's rt. A small program that makes one of these calls over and over is built, proved as every
program is, in a copy of the repository's crates; it runs for a number of calls and for twice that number under callgrind, and
printed is the difference of the two counts, divided by the number.
"""
import os
import shutil
import subprocess
import sys
import tempfile

sys.path.insert(0, os.path.dirname(os.path.dirname(os.path.realpath(__file__))))
from speed import TOP
from speed.counted import counted


PROGRAM = r"""
//! One call over and over: the words are its letter and how often.
#![tactic(auto)]

use buf_cache::{Cache, Disk};
use fs_blocks::Volume;
use fs_check::accept;
use fs_codec::DISK_BYTES;
use fs_nodes::Nodes;
use make_image::build;
use std::alloc::{AllocError, Global};
use std::env;
use std::process::ExitCode;
use std::rt::Env;
use v6_base::Whole;

fn open(alloc: Global, image: &[u8]) -> Result<Option<Volume>, AllocError> {
    match accept(image) {
        Ok(()) if image.len() <= DISK_BYTES => {
            let cache = Cache::new(alloc, Disk::from_bytes(alloc, image)?)?;
            Ok(Some(Volume::open_on(cache)))
        }
        _ => Ok(None),
    }
}

fn open_nodes(alloc: Global, image: &[u8]) -> Result<Option<Nodes>, AllocError> {
    match accept(image) {
        Ok(()) if image.len() <= DISK_BYTES => {
            let cache = Cache::new(alloc, Disk::from_bytes(alloc, image)?)?;
            let volume = Volume::open_on(cache);
            Ok(Some(Nodes::new(volume)))
        }
        _ => Ok(None),
    }
}

/// The generator's disk.
fn generated(alloc: Global) -> Option<Vec<u8>> {
    build(alloc, 0).ok()
}

fn take_and_give_back(volume: &mut Volume, count: u32) {
    for _ in 0..count {
        if let Ok(block) = volume.alloc_block() {
            volume.free_block(block);
        }
    }
}

fn read_or_write(nodes: &mut Nodes, space: &mut Whole, ino: u16, writes: bool, offset: u32, count: u32) {
    for _ in 0..count {
        if nodes.refs(ino) == 0 {
            return;
        }
        if writes {
            let _ = nodes.write_at(ino, offset, space, 0, 512, 1);
        } else {
            let _ = nodes.read_at(ino, offset, space, 0, 512, 1);
        }
    }
}

fn with_file(alloc: Global, space: &mut Whole, letter: u8, count: u32) -> Option<()> {
    let image = generated(alloc)?;
    let mut nodes = open_nodes(alloc, &image).ok()??;
    let ino = nodes.new_node(0o644, 0, 0, 0).ok()?;
    let place = match letter {
        b'r' | b'w' => 512,
        b'R' | b'W' => 512 * 100,
        _ => 512 * 2000,
    };
    if nodes.refs(ino) > 0 {
        let _ = nodes.write_at(ino, place, space, 0, 512, 1);
    }
    let writes = letter == b'w' || letter == b'W' || letter == b'x';
    read_or_write(&mut nodes, space, ino, writes, place, count);
    Some(())
}

fn run(alloc: Global, letter: u8, count: u32) -> Option<()> {
    let mut space = Whole::new(alloc).ok()?;
    space.set_sizes(0, 16, 0);
    match letter {
        b'a' => {
            let image = generated(alloc)?;
            let mut volume = open(alloc, &image).ok()??;
            take_and_give_back(&mut volume, count);
            Some(())
        }
        _ => with_file(alloc, &mut space, letter, count),
    }
}

fn main(rt: HostRuntime) -> ExitCode {
    let alloc = rt.alloc();
    let Ok(mut words) = env::args(&rt) else {
        return ExitCode::from(2);
    };
    let _ = words.next();
    let (Some(letter), Some(count)) = (words.next(), words.next()) else {
        return ExitCode::from(3);
    };
    let (Some(letter), Ok(count)) = (letter.as_bytes().first(), count.parse::<u32>()) else {
        return ExitCode::from(4);
    };
    match run(alloc, *letter, count) {
        Some(()) => ExitCode::from(0),
        None => ExitCode::from(5),
    }
}
"""

# why a disk may be opened: an image that is accepted is sound, and has no fault
ANSWERS = {
    "open": """
use Rattle.std.proofs.Common.{List, ℕ, sym, ◌∙◌, subst}
use Rattle.buf_cache.specs.Blocks.{block_at}
use Rattle.fs_laws.specs.Chain.{IsSound}
use Rattle.fs_laws.proofs.ImageLemmas.{image_sound}
use Rattle.store_bench.proofs.open.Goals as goal

pub open_on-requires : goal.open_on-requires
open_on-requires c =
    let P : List (List ℕ) → Type 0 = λ l. IsSound (block_at l) in
    subst P (sym (c.in_ok-cache-in-Ok.ensures.blocks ∙ c.in_ok-from_bytes-in-Ok.ensures)) (image_sound c.args.image.now c.in-Ok.ensures)
""",
    "open_nodes": """
use Rattle.std.proofs.Common.{List, ℕ, sym, ◌∙◌, subst}
use Rattle.buf_cache.specs.Blocks.{block_at}
use Rattle.fs_laws.specs.Chain.{IsSound}
use Rattle.fs_laws.specs.Whole.{IsWhole}
use Rattle.fs_laws.proofs.ImageLemmas.{image_sound, image_whole}
use Rattle.fs_laws.proofs.WholeLemmas.{whole_has_none}
use Rattle.fs_blocks.specs.State.{disk}
use Rattle.store_bench.proofs.open_nodes.Goals as goal

pub open_on-volume-requires : goal.open_on-volume-requires
open_on-volume-requires c =
    let P : List (List ℕ) → Type 0 = λ l. IsSound (block_at l) in
    subst P (sym (c.in_ok-cache-in-Ok.ensures.blocks ∙ c.in_ok-from_bytes-in-Ok.ensures)) (image_sound c.args.image.now c.in-Ok.ensures)

pub new-requires-in-Ok : goal.new-requires-in-Ok
new-requires-in-Ok c =
    let P : List (List ℕ) → Type 0 = λ l. IsWhole (block_at l) in
    let e = c.open_on-volume.ensures in
    record { sound = whole_has_none (disk c.open_on-volume.result.state) (e.whole
        (subst P (sym (c.in_ok-cache-in-Ok.ensures.blocks ∙ c.in_ok-from_bytes-in-Ok.ensures)) (image_whole c.args.image.now c.in-Ok.ensures))) }
""",
}

CALLS = [
    ("a", "a block taken and given back"),
    ("r", "512 bytes read from a small file"),
    ("R", "512 bytes read from a large file, by an indirect block"),
    ("q", "512 bytes read from a large file, by the double indirect block"),
    ("w", "512 bytes written into a small file"),
    ("W", "512 bytes written into a large file, by an indirect block"),
    ("x", "512 bytes written into a large file, by the double indirect block"),
]


def built_before(folder, names):
    """What a build has left in a crate's folder. A function may be called `out` too, and have a folder of proofs."""
    return {"out"} if "src" in names else set()


def built(folder):
    shutil.copytree(f"{TOP}/crates", f"{folder}/crates", ignore=built_before)
    shutil.copy(f"{TOP}/HANDLES", folder)
    os.makedirs(f"{folder}/crates/store_bench/src")
    with open(f"{folder}/crates/store_bench/src/main.rt", "w") as file:
        file.write(PROGRAM.lstrip())
    for name, answers in ANSWERS.items():
        os.makedirs(f"{folder}/crates/store_bench/proofs/{name}")
        with open(f"{folder}/crates/store_bench/proofs/{name}/Answers.antt", "w") as file:
            file.write(answers.lstrip())
    with open(f"{TOP}/crates.txt") as file:
        crates = file.read()
    with open(f"{folder}/crates.txt", "w") as file:
        file.write(crates + "store_bench: v6_base fs_codec buf_cache fs_check fs_laws fs_blocks fs_nodes make_image\n")
    subprocess.run(["rt", "run", "--", "a", "1"], cwd=f"{folder}/crates/store_bench", check=True, stdout=sys.stderr)
    return f"{folder}/crates/store_bench/out/store_bench"


def count(program, letter, calls):
    return counted([program, letter, str(calls)])


def main():
    if len(sys.argv) != 1:
        sys.exit(__doc__)
    with tempfile.TemporaryDirectory() as folder:
        program = built(folder)
        for letter, name in CALLS:
            calls = 2000
            cost = (count(program, letter, 2 * calls) - count(program, letter, calls)) / calls
            print(f"{cost:8.0f}  {name}", flush=True)


if __name__ == "__main__":
    main()
