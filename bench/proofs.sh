#!/usr/bin/env bash
# Times proofs and queries, outside the gate: writes a program over flp_prove and flp_query into a folder of its
# own, proves it and runs it. Give RT to name another command than rt.
set -eu
. "$(dirname "$0")/room.sh"
crates="flp_field flp_poly flp_list flp_ntt flp_gadget flp_syntax flp_check flp_lang flp_circuits flp_meaning flp_forms flp_emit flp_plan flp_load flp_prove flp_query"
furnish proofs $crates
for crate in $crates; do grep "^$crate:" "$top/crates.txt" || exit 1; done >"$room/crates.txt"
echo "bench_proofs: flp_field flp_list flp_plan flp_load flp_prove flp_query" >>"$room/crates.txt"
cat >"$room/crates/bench_proofs/src/main.rt" <<'PROGRAM'
//! Times proofs and queries of a histogram of 256 words that are checked in chunks of 16: a gadget with 32
//! inputs and 16 calls, so a domain of 32 points. Each line is the work, the time in milliseconds, how many
//! records a second, and a word that depends on all of it.
#![tactic(auto)]
ghost use Rattle.std.specs.Prelude.{◌≡◌, length};
ghost use Rattle.flp_plan.specs.Counted.{lengths_of};
ghost use Rattle.flp_plan.specs.Sizes.{sizes_of};

use flp_field::Fe;
use flp_load::load_circuit;
use flp_plan::Plan;
use flp_prove::Prover;
use flp_query::Scratch;
use std::alloc::{AllocError, Global};
use std::io;
use std::time::Instant;

/// The circuit.
const TEXT: &[u8] = b"use histogram length=256 chunk=16;";

/// How many records are proved.
const PROOFS: u64 = 20_000;

/// How many records of two shares are queried.
const RECORDS: u64 = 10_000;

fn main(rt: HostRuntime) -> io::Result<()> {
    let Ok(loaded) = load_circuit(rt.alloc(), TEXT) else {
        return Err(io::Error::other("the circuit is refused"));
    };
    time_proofs(&rt, &loaded.plan)?;
    time_queries(&rt, &loaded.plan)
}

/// Times proofs.
fn time_proofs(rt: &HostRuntime, plan: &Plan) -> io::Result<()> {
    let start = Instant::now(rt)?;
    let word = proofs(rt.alloc(), plan)?;
    let time = start.elapsed(rt)?.as_millis();
    print(rt, "proofs", PROOFS, time, word)
}

/// Times queries.
fn time_queries(rt: &HostRuntime, plan: &Plan) -> io::Result<()> {
    let start = Instant::now(rt)?;
    let word = queries(rt.alloc(), plan)?;
    let time = start.elapsed(rt)?.as_millis();
    print(rt, "records, two queries each", RECORDS, time, word)
}

/// Prints how many of what took so many milliseconds.
fn print(rt: &HostRuntime, what: &str, count: u64, time: u128, word: Fe) -> io::Result<()> {
    let second = u128::from(count) * 1000 / time.max(1);
    println!(*rt; "{count} {what}: {time} ms, {second} a second, {}", word.value())
}

/// Proves again and again, each time an encoding whose words are the last word of the proof before.
fn proofs(alloc: Global, plan: &Plan) -> Result<Fe, AllocError> {
    let mut prover = Prover::new(alloc, plan)?;
    let lengths = plan.lengths();
    let mut x = vec![in alloc; Fe::ONE; lengths.meas as usize]?;
    let joint = vec![in alloc; Fe::GENERATOR; lengths.joint as usize]?;
    let seeds = vec![in alloc; Fe::GENERATOR; lengths.prove as usize]?;
    let mut proof = vec![in alloc; Fe::ONE; lengths.proof as usize]?;
    Ok(prove_again(&mut prover, plan, &mut x, &joint, &seeds, &mut proof))
}

/// Makes so many proofs, and gives the last word.
fn prove_again(
    prover: &mut Prover,
    plan: &Plan,
    x: &mut [Fe],
    joint: &[Fe],
    seeds: &[Fe],
    proof: &mut [Fe],
) -> Fe
    requires made { prover.old ≡ sizes_of plan.now }
    requires x { length x.old ≡ (lengths_of plan.now.circuit).meas }
    requires joint { length joint.now ≡ (lengths_of plan.now.circuit).joint }
    requires seeds { length seeds.now ≡ (lengths_of plan.now.circuit).prove }
    requires proof { length proof.old ≡ (lengths_of plan.now.circuit).proof }
{
    let mut word = Fe::ONE;
    'rounds: for _ in 0..PROOFS {
        x.fill(word);
        prover.prove(plan, x, joint, seeds, proof);
        word = proof.last().copied().unwrap_or(Fe::ZERO);
    }
    word
}

/// Queries again and again, each time a share whose words are the last word of the verifier before.
fn queries(alloc: Global, plan: &Plan) -> Result<Fe, AllocError> {
    let mut scratch = Scratch::new(alloc, plan)?;
    let lengths = plan.lengths();
    let mut x = vec![in alloc; Fe::ONE; lengths.meas as usize]?;
    let proof = vec![in alloc; Fe::GENERATOR; lengths.proof as usize]?;
    let joint = vec![in alloc; Fe::GENERATOR; lengths.joint as usize]?;
    let words = vec![in alloc; Fe::GENERATOR; lengths.query as usize]?;
    let mut verifier = vec![in alloc; Fe::ONE; lengths.verifier as usize]?;
    Ok(query_again(&mut scratch, plan, &mut x, &proof, &joint, &words, &mut verifier))
}

/// Makes two queries for each record, and gives the last word.
fn query_again(
    scratch: &mut Scratch,
    plan: &Plan,
    x: &mut [Fe],
    proof: &[Fe],
    joint: &[Fe],
    words: &[Fe],
    verifier: &mut [Fe],
) -> Fe
    requires made { scratch.old ≡ sizes_of plan.now }
    requires x { length x.old ≡ (lengths_of plan.now.circuit).meas }
    requires proof { length proof.now ≡ (lengths_of plan.now.circuit).proof }
    requires joint { length joint.now ≡ (lengths_of plan.now.circuit).joint }
    requires words { length words.now ≡ (lengths_of plan.now.circuit).query }
    requires verifier { length verifier.old ≡ (lengths_of plan.now.circuit).verifier }
{
    let mut word = Fe::ONE;
    'rounds: for _ in 0..2 * RECORDS {
        x.fill(word);
        let _answer = scratch.query(plan, x, proof, joint, words, 2, verifier);
        word = verifier.last().copied().unwrap_or(Fe::ZERO);
    }
    word
}
PROGRAM
for loop in prove_again query_again; do mkdir -p "$room/crates/bench_proofs/proofs/$loop"; done
cat >"$room/crates/bench_proofs/proofs/prove_again/Invariants.antt" <<'PROOF'
use Rattle.std.proofs.Common.{◌≡◌}
use Rattle.flp_plan.specs.Sizes.{sizes_of}
use Rattle.bench_proofs.proofs.prove_again.Given as goal

abbrev pub invariant-rounds : goal.invariant-rounds
invariant-rounds l = l.prover ≡ sizes_of l.plan
PROOF
cat >"$room/crates/bench_proofs/proofs/query_again/Invariants.antt" <<'PROOF'
use Rattle.std.proofs.Common.{◌≡◌}
use Rattle.flp_plan.specs.Sizes.{sizes_of}
use Rattle.bench_proofs.proofs.query_again.Given as goal

abbrev pub invariant-rounds : goal.invariant-rounds
invariant-rounds l = l.scratch ≡ sizes_of l.plan
PROOF
measure proofs
