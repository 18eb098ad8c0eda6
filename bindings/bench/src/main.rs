//! `bench time`: the time of an event, a line for each class: its name, how many events, nanoseconds here and in the
//! original.
//!
//! `bench drain`: the speed of the ring's drain, as rows of a table.
//!
//! `bench key`: nanoseconds of a key told to a seat over a ring, and of the same event encoded with no seat.
//!
//! `bench work CLASS SIDE PASSES`: only encodes, for a program that counts instructions; SIDE is `ours` or `original`.

use bench::classes::Class;
use bench::sides::Side;
use bench::{ring, sides, timing};
use std::env;
use std::process::ExitCode;

fn time() {
    for class in Class::all() {
        sides::assert_agreement(&class);
        let [mut ours, mut theirs] = sides::both(&class);
        let count = class.cases.len();
        let [here, there] = timing::least([&mut || ours.pass(), &mut || theirs.pass()])
            .map(|seconds| seconds * 1e9 / count as f64);
        println!("{} {count} {here:.1} {there:.1}", class.name);
    }
}

fn drain() {
    for (length, head) in [(64, 0), (512, 0), (4096, 0), (4096, 2048)] {
        let [drained, copied] = ring::rates(length, head).map(|rate| rate / 1e9);
        let ratio = drained / copied;
        println!("| {length} | {head} | {drained:.2} | {copied:.2} | {ratio:.2} |");
    }
}

fn key() {
    let [told, encoded] = ring::key_seconds().map(|seconds| seconds * 1e9);
    println!("{told:.1} {encoded:.1}");
}

fn side_of(class: &str, side: &str) -> Option<Box<dyn Side>> {
    let [ours, theirs] = sides::both(&Class::named(class)?);
    match side {
        "ours" => Some(ours),
        "original" => Some(theirs),
        _ => None,
    }
}

fn work(class: &str, side: &str, passes: &str) -> Option<()> {
    let mut side = side_of(class, side)?;
    for _ in 0..passes.parse::<usize>().ok()? {
        side.pass();
    }
    Some(())
}

fn run(words: &[&str]) -> Option<()> {
    match *words {
        ["time"] => time(),
        ["drain"] => drain(),
        ["key"] => key(),
        ["work", class, side, passes] => work(class, side, passes)?,
        _ => return None,
    }
    Some(())
}

fn main() -> ExitCode {
    let words: Vec<String> = env::args().skip(1).collect();
    let words: Vec<&str> = words.iter().map(String::as_str).collect();
    if run(&words).is_none() {
        eprintln!("usage: bench time | drain | key | work CLASS ours|original PASSES");
        return ExitCode::FAILURE;
    }
    ExitCode::SUCCESS
}
