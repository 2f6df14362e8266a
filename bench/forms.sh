#!/usr/bin/env bash
# Times public values and linear forms, outside the gate: writes a program over flp_forms into a folder of its
# own, proves it and runs it. Give RT to name another command than rt.
set -eu
. "$(dirname "$0")/room.sh"
furnish forms flp_field flp_forms
cat >"$room/crates.txt" <<'LINES'
flp_field:
flp_forms: flp_field
bench_forms: flp_field flp_forms anyhow
LINES
cat >"$room/crates/bench_forms/src/main.rt" <<'PROGRAM'
//! Times public values and linear forms. Each line is the work, the time in milliseconds, how much of it a
//! second, and a word that depends on all of it.
#![tactic(auto)]
ghost use Rattle.std.specs.Prelude.{◌≡◌, All, length};
ghost use Rattle.flp_forms.specs.LinearForms.{TermFits};

use anyhow::Context;
use flp_field::Fe;
use flp_forms::{Scale, Source, Steps, Term, form_at};
use std::time::Instant;

/// How many terms the form has.
const TERMS: u32 = 256;

/// How often the form is evaluated.
const FORMS: u64 = 400_000;

/// How many powers of a joint word the steps have.
const POWERS: u32 = 1024;

/// How often the steps are run.
const RUNS: u64 = 100_000;

fn main(rt: HostRuntime) -> anyhow::Result<()> {
    let steps = powers(&rt)?;
    let mut publics = vec![in rt.alloc(); Fe::ONE; steps.len() as usize]?;
    let start = Instant::now(&rt)?;
    let word = runs(&steps, &mut publics).context("the steps are not as many as the words")?;
    let time = start.elapsed(&rt)?.as_millis().max(1);
    let count = RUNS as u128 * publics.len() as u128;
    println!(rt; "{RUNS} runs of {POWERS} powers: {time} ms, {} public values a second, {}", count * 1000 / time, word.value())?;

    for (name, scale) in [("products", None), ("sums", Some(Scale::One)), ("differences", Some(Scale::MinusOne))] {
        let mut terms = Vec::with_capacity(rt.alloc(), TERMS as usize)?;
        for index in 0..TERMS {
            terms.push(Term { scale: scale.unwrap_or(Scale::Value(index)), source: Source::Meas(index) })?;
        }
        let meas = [Fe::GENERATOR; TERMS as usize];
        let start = Instant::now(&rt)?;
        let word = forms(&terms, &publics, meas).context("a term reads past the end")?;
        let time = start.elapsed(&rt)?.as_millis().max(1);
        let count = FORMS as u128 * TERMS as u128;
        println!(rt; "{FORMS} forms of {TERMS} {name}: {time} ms, {} terms a second, {}", count * 1000 / time, word.value())?;
    }
    Ok(())
}

/// The powers of one joint word.
fn powers(rt: &impl AllocGlobal) -> anyhow::Result<Steps> {
    let mut steps = Steps::new(rt.alloc(), 1)?;
    let word = steps.joint(0);
    for exponent in 1..=POWERS {
        if word < steps.len() {
            steps.power(word, exponent)?;
        }
    }
    Ok(steps)
}

/// The sum of the last public values of all runs, each of which has the value before as its joint word.
fn runs(steps: &Steps, publics: &mut [Fe]) -> Option<Fe> {
    if steps.joint_len() != 1 || publics.len() != steps.len() as usize {
        return None;
    }
    let mut word = Fe::GENERATOR;
    for _ in 0..RUNS {
        let joint = [word.add(Fe::ONE)];
        steps.run(&joint, publics);
        word = word.add(publics.last().copied().unwrap_or(Fe::ZERO));
    }
    Some(word)
}

/// The sum of the values of a form at words of which the first is the value before.
fn forms(terms: &[Term], publics: &[Fe], mut meas: [Fe; TERMS as usize]) -> Option<Fe> {
    if !terms.iter().all(|term| term.fits(publics.len(), TERMS as usize, 0)) {
        return None;
    }
    let mut word = Fe::ONE;
    for _ in 0..FORMS {
        word = form_at(terms, publics, &meas, &[], Fe::ONE);
        meas[0] = word;
    }
    Some(word)
}
PROGRAM
measure forms
