//! Runs the Rust original and our library on the same sections.
//!   driver compare SECTIONS SEED     generated sections
//!   driver one SEED INDEX            one of them, told in full
//!   driver files PATH..              given sections
//!   driver limits                    sections of the largest sizes
//!   driver answers SEED PATH         writes the stored answers
//!   driver recorded PATH.btf..       what the program prints for each, by the Rust, against PATH.out
#![feature(internal_output_capture)]

mod answers;
mod causes;
mod compare;
mod damage;
mod deep;
mod domain;
mod host;
mod lent;
mod limits;
mod names;
mod original;
mod ours;
mod plan;
mod random;
mod session;
mod shapes;
mod shrink;
mod small;
mod table;
mod web;

fn main() {
    let args: Vec<String> = std::env::args().skip(1).collect();
    let number = |i: usize, default: u64| args.get(i).map_or(default, |s| s.parse().expect("a number"));
    original::keep_panics();
    let differences = match args.first().map(String::as_str) {
        Some("compare") => compare::generated(number(1, 20_000), number(2, 1)),
        Some("one") => compare::one(number(1, 1), number(2, 0)),
        Some("files") => compare::files(&args[1..]),
        Some("answers") => answers::store(number(1, 1), &args[2]),
        Some("recorded") => compare::recorded(&args[1..]),
        Some("limits") => limits::run(),
        _ => panic!("driver compare SECTIONS SEED | one SEED INDEX | files PATH.. | limits"),
    };
    std::process::exit(if differences == 0 { 0 } else { 1 });
}
