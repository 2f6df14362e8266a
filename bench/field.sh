#!/usr/bin/env bash
# Times the arithmetic of words, outside the gate: writes a program over flp_field and flp_poly into a
# folder of its own, proves it and runs it. Give RT to name another command than rt.
set -eu
. "$(dirname "$0")/room.sh"
furnish field flp_field flp_poly
cat >"$room/crates.txt" <<'LINES'
flp_field:
flp_poly: flp_field
bench_field: flp_field flp_poly
LINES
cat >"$room/crates/bench_field/src/main.rt" <<'PROGRAM'
//! Times the arithmetic of words and the value of a polynomial. Each line is the work, the time in
//! milliseconds, and a word that depends on all of it.
#![tactic(auto)]

use flp_field::Fe;
use std::io;
use std::time::Instant;

/// How many products are timed.
const PRODUCTS: u64 = 100_000_000;

/// How many inverses are timed.
const INVERSES: u64 = 1_000_000;

/// How often the polynomial of 4,096 coefficients is evaluated.
const EVALUATIONS: u64 = 25_000;

fn main(rt: HostRuntime) -> io::Result<()> {
    let start = Instant::now(&rt)?;
    let word = dependent(PRODUCTS);
    let time = start.elapsed(&rt)?.as_millis();
    println!(rt; "{PRODUCTS} products, each of the one before: {time} ms, {}", word.value())?;

    let start = Instant::now(&rt)?;
    let word = independent(PRODUCTS / 4);
    let time = start.elapsed(&rt)?.as_millis();
    println!(rt; "{PRODUCTS} products in four chains: {time} ms, {}", word.value())?;

    let start = Instant::now(&rt)?;
    let word = inverses(INVERSES);
    let time = start.elapsed(&rt)?.as_millis();
    println!(rt; "{INVERSES} inverses: {time} ms, {}", word.value())?;

    let start = Instant::now(&rt)?;
    let word = evaluations(EVALUATIONS);
    let time = start.elapsed(&rt)?.as_millis();
    println!(rt; "{EVALUATIONS} values of 4096 coefficients: {time} ms, {}", word.value())?;
    Ok(())
}

fn dependent(count: u64) -> Fe {
    let mut word = Fe::GENERATOR;
    for _ in 0..count {
        word = word.mul(Fe::GENERATOR);
    }
    word
}

fn independent(count: u64) -> Fe {
    let mut a = Fe::GENERATOR;
    let mut b = a.add(Fe::ONE);
    let mut c = b.add(Fe::ONE);
    let mut d = c.add(Fe::ONE);
    for _ in 0..count {
        a = a.mul(Fe::GENERATOR);
        b = b.mul(Fe::GENERATOR);
        c = c.mul(Fe::GENERATOR);
        d = d.mul(Fe::GENERATOR);
    }
    a.add(b).add(c.add(d))
}

fn inverses(count: u64) -> Fe {
    let mut word = Fe::GENERATOR;
    for _ in 0..count {
        let next = word.add(Fe::ONE);
        word = if next.value() > 0 { next.inv() } else { Fe::ONE };
    }
    word
}

fn evaluations(count: u64) -> Fe {
    let poly = [Fe::GENERATOR; 4096];
    let mut word = Fe::GENERATOR;
    for _ in 0..count {
        word = flp_poly::eval(&poly, word);
    }
    word
}
PROGRAM
measure field
