//! What `souper-ir` gives for a text: `driver format KIND` reads standard input and parses it as KIND (lhs, rhs, rep).
//! If it is accepted, each item is printed as the crate prints it, with a newline after it, and the status is 0.
//! If it is refused, the error is printed on standard error with a newline after it, and the status is 1.
//! `driver time KIND TURNS` does so TURNS times, without printing, and prints the seconds of the fastest turn.
use souper_ir::parse::{
    parse_left_hand_sides_str, parse_replacements_str, parse_right_hand_sides_str, Result,
};
use std::hint::black_box;
use std::io::Read;
use std::time::Instant;

fn texts(kind: &str, source: &str) -> Result<Vec<String>> {
    Ok(match kind {
        "lhs" => shown(parse_left_hand_sides_str(source, None)?),
        "rhs" => shown(parse_right_hand_sides_str(source, None)?),
        _ => shown(parse_replacements_str(source, None)?),
    })
}

fn shown<T: std::fmt::Display>(items: Vec<T>) -> Vec<String> {
    items.iter().map(|item| item.to_string()).collect()
}

fn fastest(kind: &str, source: &str, turns: usize) -> f64 {
    let turn = |_| {
        let begin = Instant::now();
        let items = texts(kind, source).unwrap();
        let seconds = begin.elapsed().as_secs_f64();
        black_box(items);
        seconds
    };
    (0..turns).map(turn).fold(f64::MAX, f64::min)
}

fn main() {
    let args: Vec<String> = std::env::args().collect();
    let mut source = String::new();
    std::io::stdin().read_to_string(&mut source).unwrap();
    if args[1] == "time" {
        println!("{:.3}", fastest(&args[2], &source, args[3].parse().unwrap()));
        return;
    }
    assert!(args[1] == "format");
    match texts(&args[2], &source) {
        Ok(items) => items.iter().for_each(|item| println!("{item}")),
        Err(error) => {
            eprintln!("{error}");
            std::process::exit(1);
        }
    }
}
