//! The seconds that a file of left-hand sides takes to be read as values and printed again.
//!
//!     speed FILE [TURNS]
//!
//! Prints the fastest of the turns: reading, printing, both. The source compiles against either crate, as `drop_in.rs` does.
use souper_ir::parse::parse_left_hand_sides_str;
use std::fmt::Write;
use std::time::Instant;

// Of one turn.
fn seconds(text: &str) -> (f64, f64) {
    let begin = Instant::now();
    let Ok(items) = parse_left_hand_sides_str(text, None) else {
        panic!("the file is invalid")
    };
    let read = begin.elapsed();
    let mut printed = String::new();
    for item in &items {
        writeln!(printed, "{item}").expect("items that were read are well formed");
    }
    let both = begin.elapsed();
    std::hint::black_box(printed);
    (read.as_secs_f64(), (both - read).as_secs_f64())
}

fn main() {
    let arguments: Vec<String> = std::env::args().collect();
    let text = std::fs::read_to_string(&arguments[1]).expect("the file can be read");
    let turns = arguments
        .get(2)
        .map_or(5, |turns| turns.parse().expect("a number"));
    let times: Vec<_> = (0..turns).map(|_| seconds(&text)).collect();
    let least = |of: fn(&(f64, f64)) -> f64| times.iter().map(of).fold(f64::MAX, f64::min);
    let (read, print, both) = (least(|t| t.0), least(|t| t.1), least(|t| t.0 + t.1));
    println!("{read:.3} {print:.3} {both:.3}");
}
