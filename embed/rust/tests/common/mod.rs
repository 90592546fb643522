//! The stored answers: texts, each with its canonical text or its error.
use souper_ir::canonical::Kind;
use std::path::Path;

pub struct Record {
    pub kind: Kind,
    pub is_refused: bool,
    pub text: String,
    pub answer: String,
}

fn record(rest: &str) -> (Record, &str) {
    let (head, rest) = rest.split_once('\n').expect("a record has a head");
    let words: Vec<&str> = head.split(' ').collect();
    let [kind, status, _, text, answer] = words[..] else {
        panic!("a head has five words: {head}")
    };
    let kind = match kind {
        "lhs" => Kind::Lhs,
        "rhs" => Kind::Rhs,
        _ => Kind::Rep,
    };
    let (text, rest) = rest.split_at(text.parse().unwrap());
    let (answer, rest) = rest[1..].split_at(answer.parse().unwrap());
    let record = Record {
        kind,
        is_refused: status == "1",
        text: text.into(),
        answer: answer.into(),
    };
    (record, &rest[1..])
}

pub fn records() -> Vec<Record> {
    let path = Path::new(env!("CARGO_MANIFEST_DIR")).join("../../crates/replay_answers/stdin");
    let stored = std::fs::read_to_string(path).unwrap();
    let mut records = Vec::new();
    let mut rest = stored.as_str();
    while !rest.is_empty() {
        let (record, tail) = record(rest);
        records.push(record);
        rest = tail;
    }
    assert_eq!(records.len(), 560);
    records
}
