#!/usr/bin/env bash
# Times the reading, the printing, the timeline and the plan of the largest project file: 432,000 frames, 1,000
# assets, 1,000 picture clips that overlap and 1,000 sound clips of 256 gains each. It builds a program of its own
# in a folder that is deleted again. Times are in milliseconds.
set -euo pipefail
top=$(cd "$(dirname "$0")/.." && pwd)
work=$(mktemp -d)
trap 'rm -rf "$work"' EXIT
"$top/.ci/copy-crates" "$work" film_plan film_reader
mkdir -p "$work/crates/large/src"
echo 'large: film_project film_reader film_printer film_timeline film_plan serde_json io anyhow' >> "$work/crates.txt"
cat > "$work/crates/large/src/main.rt" <<'RT'
//! Reads the file `project.json`, and prints how long its parts took.
#![tactic(auto)]

use film_plan::plan;
use film_printer::project_text;
use film_project::Project;
use film_reader::read_project;
use film_timeline::cells;
use serde_json::Value;
use std::fs;
use std::io;
use std::time::Instant;

/// The part of `serde_json` alone.
fn time_json(rt: &HostRuntime, text: &[u8]) -> io::Result<()> {
    let start = Instant::now(rt)?;
    let value = Value::from_slice(rt.alloc(), text);
    let parsed = start.elapsed(rt)?;
    println!(rt; "json read {} {}", value.is_ok(), parsed.as_millis())?;
    if let Ok(value) = value {
        let start = Instant::now(rt)?;
        let printed = value.to_vec(rt.alloc());
        let took = start.elapsed(rt)?;
        println!(rt; "json print {} {}", printed.is_ok(), took.as_millis())?;
    }
    Ok(())
}

fn time_text(rt: &HostRuntime, project: &Project) -> io::Result<()> {
    let start = Instant::now(rt)?;
    let printed = project_text(rt.alloc(), project);
    let took = start.elapsed(rt)?;
    println!(rt; "print {} {}", printed.is_ok(), took.as_millis())
}

fn time_cells(rt: &HostRuntime, project: &Project) -> io::Result<()> {
    let start = Instant::now(rt)?;
    let shown = cells(rt.alloc(), project);
    let took = start.elapsed(rt)?;
    println!(rt; "cells {} {}", shown.is_ok(), took.as_millis())
}

fn time_plan(rt: &HostRuntime, project: &Project) -> io::Result<()> {
    let sizes = Vec::from_elem(rt.alloc(), u64::MAX, project.assets.len())?;
    let start = Instant::now(rt)?;
    let planned = plan(rt.alloc(), project, &sizes);
    let took = start.elapsed(rt)?;
    println!(rt; "plan {} {}", planned.is_ok(), took.as_millis())
}

fn time_project(rt: &HostRuntime, project: &Project) -> io::Result<()> {
    time_text(rt, project)?;
    time_cells(rt, project)?;
    time_plan(rt, project)
}

fn main(rt: HostRuntime) -> io::Result<()> {
    let text = fs::read(&rt, "project.json")?;
    println!(rt; "bytes {}", text.len())?;
    for _ in 0..5u32 {
        time_json(&rt, text.as_slice())?;
        let start = Instant::now(&rt)?;
        let project = read_project(rt.alloc(), text.as_slice());
        let took = start.elapsed(&rt)?;
        println!(rt; "read {} {}", project.is_ok(), took.as_millis())?;
        match project {
            Ok(project) => time_project(&rt, &project)?,
            Err(refusal) => println!(rt; "{refusal:?}")?,
        }
    }
    Ok(())
}
RT
python3 - "$work/project.json" <<'PY'
import json, sys
p = {
    "title": "t" * 100, "kind": "transitional", "issued": "2024-05-01T12:00:00",
    "namespace": "6ba7b810-9dad-11d1-80b4-00c04fd430c8",
    "width": 2048, "height": 1080, "fps": 24, "rate": 250, "power": 11, "channels": 16, "frames": 432000,
    "assets": [], "picture": [], "sound": [],
}
for i in range(1000):
    a = {"id": ("a%d" % i).ljust(40, "x"), "kind": "pcm24" if i % 2 else "rgb48", "file": ("f%d" % i).ljust(200, "y")}
    if i % 2:
        a["channels"] = 16
    p["assets"].append(a)
for i in range(1000):
    p["picture"].append({"asset": p["assets"][2 * (i % 500)]["id"], "at": 200 * i, "from": 999999, "count": 200000, "hold": 100})
    p["sound"].append({"asset": p["assets"][2 * (i % 500) + 1]["id"], "at": 215999, "from": 999999, "count": 200000,
                       "gains": [[15, 15, 262144 - k] for k in range(256)]})
with open(sys.argv[1], "w") as f:
    json.dump(p, f, separators=(",", ":"))
PY
cd "$work/crates/large"
mkdir -p data && mv "$work/project.json" data/
cp data/project.json .
rt run
