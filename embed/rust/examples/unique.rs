//! Drops duplicates from a harvest, on as many threads as there are processors.
//!
//!     cargo run --example unique -- FILE... > unique.lhs
//!
//! Each file has left-hand sides, with an empty line after each. The first of each graph is printed, by its canonical text,
//! in the order of the files; standard error has how many there were, and each that was refused.
use souper_ir::canonical::{format, Error, Kind};
use std::collections::HashSet;
use std::io::{IsTerminal, Write};
use std::process::ExitCode;
use std::thread;

// An item of a file, by the file's path and the item's text.
type Item<'a> = (&'a str, &'a str);

// The canonical texts of the items, in their order, each by one of the threads.
fn canonical<'a>(items: &[Item<'a>]) -> Vec<(Item<'a>, Result<String, Error>)> {
    let threads = thread::available_parallelism().map_or(1, |number| number.get());
    let share = items.len().div_ceil(threads).max(1);
    let work = |part: &[Item<'a>]| {
        part.iter()
            .map(|item| (*item, format(Kind::Lhs, item.1)))
            .collect::<Vec<_>>()
    };
    thread::scope(|scope| {
        let handles: Vec<_> = items
            .chunks(share)
            .map(|part| scope.spawn(move || work(part)))
            .collect();
        handles
            .into_iter()
            .flat_map(|handle| handle.join().expect("no call panics"))
            .collect()
    })
}

// The text; at a terminal what that may obey is another character.
fn visible(text: String, is_terminal: bool) -> String {
    let other = |c: char| match c {
        '\n' => c,
        '\0'..='\x1f' => char::from_u32(0x2400 + c as u32).unwrap_or('\u{fffd}'),
        '\x7f' => '\u{2421}',
        '\u{80}'..='\u{9f}' | '\u{202a}'..='\u{202e}' | '\u{2066}'..='\u{2069}' => '\u{fffd}',
        _ => c,
    };
    if is_terminal {
        text.chars().map(other).collect()
    } else {
        text
    }
}

fn main() -> Result<ExitCode, Box<dyn std::error::Error>> {
    let paths: Vec<String> = std::env::args().skip(1).collect();
    let texts = paths
        .iter()
        .map(std::fs::read_to_string)
        .collect::<Result<Vec<_>, _>>()?;
    let files = paths.iter().zip(&texts);
    let items: Vec<Item> = files
        .flat_map(|(path, text)| text.split("\n\n").map(|item| (path.as_str(), item)))
        .collect();
    let (mut seen, mut count, mut refused) = (HashSet::new(), 0, 0);
    let mut out = std::io::stdout().lock();
    for ((path, item), result) in canonical(&items) {
        match result {
            // The rest after the last item of a file.
            Ok(text) if text.is_empty() => continue,
            Ok(text) => {
                if !seen.contains(&text) {
                    out.write_all(text.as_bytes())?;
                    seen.insert(text);
                }
            }
            Err(error) => {
                let shown = format!("{path}: {error}\nof the item\n{item}");
                eprintln!("{}", visible(shown, std::io::stderr().is_terminal()));
                refused += 1;
            }
        }
        count += 1;
    }
    eprintln!("{count} items, {} graphs, {refused} refused", seen.len());
    Ok(if refused == 0 {
        ExitCode::SUCCESS
    } else {
        ExitCode::FAILURE
    })
}
