//! What a store of replacements answers for left-hand sides.
mod common;

use common::records;
use souper_ir::canonical::{find, format, key, Error, Kind, Record, Refusal};

const STORE: &str = "%x:i8 = var  %y = add %x, %x  infer %y  %z = shl %x, 1  result %z
    %a:i8 = var  %b = add %a, %a  cand %b 0
    %c:i8 = var  %d = add %c, %c  %e = shl %c, 1  cand %d %e
    cand 3 4";

#[test]
fn each_left_hand_side_has_its_answers() {
    let queries = "%p:i8 = var %q = add %p, %p infer %q  %p = var infer %p";
    let first = "%p:i8 = var\n%q = add %p, %p\ninfer %q\n";
    let answers = vec![
        vec![
            format!("{first}%2 = shl %p, 1\nresult %2\n"),
            format!("{first}result 0\n"),
        ],
        vec![],
    ];
    assert_eq!(find(STORE, queries), Ok(answers));
    assert_eq!(find("", queries), Ok(vec![vec![], vec![]]));
    assert_eq!(find(STORE, "; none"), Ok(vec![]));
}

// What is stored of a replacement answers its left-hand side.
#[test]
fn a_replacement_answers_its_left_hand_side() {
    let renamed = Record {
        renamed: true,
        ..Record::default()
    };
    let mut count = 0;
    for record in records() {
        let has_left = record.kind == Kind::Rep && record.answer.contains("\ninfer ");
        if record.is_refused || !has_left {
            continue;
        }
        for text in record.answer.split_inclusive("\n\n") {
            let Some(infer) = text.find("\ninfer ") else {
                continue;
            };
            let end = infer + 1 + text[infer + 1..].find('\n').unwrap() + 1;
            let answers = find(&record.text, &text[..end]).unwrap();
            let is_answer = |answer: &String| {
                answer.starts_with(&text[..end])
                    && key(Kind::Rep, answer, renamed) == key(Kind::Rep, text, renamed)
            };
            assert!(answers.len() == 1 && answers[0].iter().any(is_answer));
            count += 1;
        }
    }
    assert!(count > 10);
    println!("Rust: stored replacements: {count} passed, 0 failed");
}

#[test]
fn answers_may_be_longer_than_the_first_buffer() {
    let store: String = (0..500)
        .map(|n| format!("%x:i8 = var infer %x result {n} "))
        .collect();
    let answers = find(&store, "%y:i8 = var infer %y").unwrap();
    let expected: Vec<_> = (0..500)
        .map(|n| format!("%y:i8 = var\ninfer %y\nresult {n}\n"))
        .collect();
    assert_eq!(answers, [expected]);
}

fn refusal<T>(result: Result<T, Error>) -> Refusal {
    match result {
        Err(Error::Refused(refusal)) => refusal,
        _ => panic!("it is refused"),
    }
}

#[test]
fn a_refused_text_is_told_by_its_number() {
    for (kind, store, queries) in [
        (Kind::Rep, "infer", "%x"),
        (Kind::Lhs, "", "%x = var infer"),
    ] {
        let found = refusal(find(store, queries));
        let text = if kind == Kind::Rep { store } else { queries };
        let expected = refusal(format(kind, text));
        assert_eq!(found.input(), usize::from(kind == Kind::Lhs));
        assert_eq!(found.shown(), expected.shown());
        assert_eq!(
            (found.offset(), found.line(), found.column()),
            (expected.offset(), expected.line(), expected.column())
        );
        assert_eq!(
            (found.location(), found.is_at_end()),
            (expected.location(), true)
        );
    }
}
