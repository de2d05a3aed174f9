//! Runs both programs on the same random input, stops at the first difference, and says at the end
//! what was tried and, as a hash, what each side wrote.

mod counted;
mod plan;

use std::time::Duration;

use crate::generator;
use crate::ours::{Ours, LONGEST_RUN};
use crate::programs::{self, Input, Name};
use crate::report::{input_text, report};
use crate::shrink;
use crate::tally::Tally;
use crate::vectors;
use crate::written::Hashes;
use plan::Draw;

/// A run on a shortened input; one that takes longer counts as a difference.
const LONGEST_TRY: Duration = Duration::from_secs(10);

/// True where nothing differed and nothing was left untried.
pub fn compare(seed: u64, rounds: u64) -> bool {
    let ours = Ours::new();
    // A product that isn't there is no difference to be shortened.
    if let Err(reason) = ours.run(Name::List, &Input::default(), LONGEST_RUN) {
        println!("nothing can be compared: the program {reason}");
        return false;
    }
    let mut tally = Tally::default();
    let mut written = Hashes::default();
    for round in 1..=rounds {
        for draw in plan::round(seed, round) {
            if !compare_one(&ours, draw, &mut tally, &mut written) {
                return false;
            }
        }
        println!("round {round} of {rounds}: equal");
    }
    println!("\nHow often each thing was tried:\n{}", tally.table());
    let missing = tally.missing();
    for name in &missing {
        println!("NEVER TRIED: {name}");
    }
    let vectors_good = compare_vectors(&ours, &mut written);
    if missing.is_empty() && vectors_good {
        println!("equal: seed {seed}, {rounds} rounds");
        print!("{written}");
    }
    missing.is_empty() && vectors_good
}

fn compare_one(ours: &Ours, draw: Draw, tally: &mut Tally, written: &mut Hashes) -> bool {
    let Draw { name, seed, size } = draw;
    let input = generator::generate(name, seed, size);
    let own = counted::run(name, &input, tally);
    let given = ours.run(name, &input, LONGEST_RUN);
    written.of(name).add(&given, &own);
    if given.as_ref() == Ok(&own) {
        return true;
    }
    println!(
        "DIFFERENCE in {} (input: second gen {0} {seed} {size})",
        name.word()
    );
    println!("making the input shorter ...");
    let mut differs =
        |input: &Input| ours.run(name, input, LONGEST_TRY) != Ok(programs::run(name, input));
    let shortest = shrink::shrink(name, &input, &mut differs);
    println!(
        "\nThe shortest input found:\n{}",
        input_text(name, &shortest)
    );
    report(
        name,
        &ours.run(name, &shortest, LONGEST_TRY),
        &programs::run(name, &shortest),
    );
    false
}

/// Both programs are held to the outputs written down by hand.
fn compare_vectors(ours: &Ours, written: &mut Hashes) -> bool {
    let mut vectors = vectors::all();
    vectors.retain(|vector| vector.name.is_compared());
    let mut good = true;
    for vector in &vectors {
        let own = programs::run(vector.name, &vector.input);
        if own != vector.expected {
            println!("\nSECOND DIFFERS from the fixed vector '{}'", vector.title);
            println!("{}", input_text(vector.name, &vector.input));
            report(vector.name, &Ok(vector.expected.clone()), &own);
            good = false;
        }
        let given = ours.run(vector.name, &vector.input, LONGEST_RUN);
        written.of(vector.name).add(&given, &own);
        if given.as_ref() != Ok(&vector.expected) {
            println!("\nDIFFERENCE from the fixed vector '{}'", vector.title);
            println!("{}", input_text(vector.name, &vector.input));
            report(vector.name, &given, &vector.expected);
            good = false;
        }
    }
    if good {
        println!("{} fixed vectors: good", vectors.len());
    }
    good
}
