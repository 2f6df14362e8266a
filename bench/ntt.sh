#!/usr/bin/env bash
# Times the transforms, outside the gate: writes a program over flp_ntt into a folder of its own, proves it
# and runs it. Give RT to name another command than rt.
set -eu
. "$(dirname "$0")/room.sh"
furnish ntt flp_field flp_poly flp_ntt
cat >"$room/crates.txt" <<'LINES'
flp_field:
flp_poly: flp_field
flp_ntt: flp_field flp_poly
bench_ntt: flp_field flp_ntt anyhow
LINES
cat >"$room/crates/bench_ntt/src/main.rt" <<'PROGRAM'
//! Times the transforms. Each line is the work, the time in milliseconds, how many a second, and a word
//! that depends on all of it.
#![tactic(auto)]
ghost use Rattle.std.specs.Prelude.{◌≤◌, length};
ghost use Rattle.flp_ntt.specs.TransformSize.{IsTransformSize};

use flp_field::Fe;
use flp_ntt::{forward, inverse};
use std::time::Instant;

fn main(rt: HostRuntime) -> anyhow::Result<()> {
    for (log, rounds) in [(10, 20_000), (16, 200), (20, 10)] {
        let mut values = vec![in rt.alloc(); Fe::GENERATOR; 1 << log]?;
        let start = Instant::now(&rt)?;
        let word = there(&mut values, rounds);
        let time = start.elapsed(&rt)?.as_millis().max(1);
        println!(rt; "forward, 2^{log} words, {rounds} times: {time} ms, {} a second, {}", rounds as u128 * 1000 / time, word.value())?;

        let start = Instant::now(&rt)?;
        let word = back(&mut values, rounds);
        let time = start.elapsed(&rt)?.as_millis().max(1);
        println!(rt; "inverse, 2^{log} words, {rounds} times: {time} ms, {} a second, {}", rounds as u128 * 1000 / time, word.value())?;
    }
    Ok(())
}

fn there(values: &mut [Fe], rounds: u64) -> Fe
    requires { IsTransformSize (length values.old) }
{
    for _ in 0..rounds {
        forward(values);
    }
    values.first().copied().unwrap_or(Fe::ZERO)
}

fn back(values: &mut [Fe], rounds: u64) -> Fe
    requires { IsTransformSize (length values.old) }
{
    for _ in 0..rounds {
        inverse(values);
    }
    values.first().copied().unwrap_or(Fe::ZERO)
}
PROGRAM
measure ntt
