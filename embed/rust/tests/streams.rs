//! The items of a stream: those of its segments, and their refusals, however it comes in parts.
mod common;

use common::records;
use souper_ir::ast::{LeftHandSide, Replacement, RightHandSide};
use souper_ir::canonical::{Kind, Refusal};
use souper_ir::code::{self, Item};
use souper_ir::parse::ParseError;
use souper_ir::stream::{items, Error, Reader};
use std::io::{self, BufReader, Read};

// What comes of a stream at a place.
#[derive(Debug, PartialEq)]
enum Event {
    Item(String),
    // What it shows, the place, the location, and whether it is at the end.
    Refused(String, [usize; 3], Option<[usize; 3]>, bool),
    NotUtf8(usize, usize),
}

fn refused(refusal: &Refusal) -> Event {
    let place = [refusal.offset(), refusal.line(), refusal.column()];
    let location = refusal.location().map(|at| [at.offset, at.line, at.column]);
    Event::Refused(
        refusal.shown().to_string(),
        place,
        location,
        refusal.is_at_end(),
    )
}

fn event<T: Item>(next: Result<T, Error>) -> Event {
    match next {
        Ok(item) => Event::Item(item.to_text().unwrap()),
        Err(Error::Refused(refusal)) => refused(&refusal),
        Err(Error::NotUtf8 { offset, line }) => Event::NotUtf8(offset, line),
        Err(error) => panic!("{error}"),
    }
}

// Pushes to a reader that may be at the end, after bytes that are not UTF-8.
fn push<T>(reader: &mut Reader<T>, part: &[u8]) {
    if let Err(error) = reader.push(part) {
        assert!(matches!(error, Error::Ended));
    }
}

// What comes of a text that is cut before each of these bytes.
fn in_parts<T: Item>(mut reader: Reader<T>, text: &[u8], cuts: &[usize]) -> Vec<Event> {
    let mut found = Vec::new();
    let mut at = 0;
    for cut in cuts {
        push(&mut reader, &text[at..*cut]);
        at = *cut;
        found.extend(reader.by_ref().map(event));
    }
    push(&mut reader, &text[at..]);
    reader.finish();
    found.extend(reader.map(event));
    found
}

// What is to come of segments: each is read after as many blank bytes and lines as come before it.
fn of_segments<T: Item>(segments: &[&str]) -> Vec<Event> {
    let mut found = Vec::new();
    let mut before = String::new();
    for segment in segments {
        match code::read(T::KIND, &format!("{before}{segment}")) {
            Ok(read) => found.extend(
                code::decode::<T>(&read)
                    .unwrap()
                    .into_iter()
                    .map(|item| event(Ok(item))),
            ),
            Err(souper_ir::canonical::Error::Refused(refusal)) => found.push(refused(&refusal)),
            Err(error) => panic!("{error}"),
        }
        before.extend(
            segment
                .bytes()
                .map(|byte| if byte == b'\n' { '\n' } else { ' ' }),
        );
    }
    found
}

const LHS: [&str; 8] = [
    "; a comment first\n%x = var\ninfer %x\n\n",
    "%y:i8 = var ; \u{e9}\r\n%z = add %y, 1\r\npc %z 1\r\ninfer %z\r\n",
    "%x = var\ninfer %q\n  # no comment\n",
    "%a = var\n%b = frob %a\ninfer %b\n",
    "%x = var\ninfer\n",
    "%x = var infer %x %y = var\ninfer %y (harvestedFromUse)\n; infer %x\n",
    "%x = var\n\n\n; between\n infer %x\n",
    "%n = var\n%m = add %n,\n1\ninfer %m",
];

const RHS: [&str; 5] = [
    "result 1\n",
    "result 2 result 3\n",
    "result\n",
    "result %x\n",
    "%x = var result %x\n\n",
];

const REP: [&str; 4] = [
    "%x = var\ncand %x 1\n",
    "%x = var\ninfer %x\n%y = var\nresult %y\n",
    "result 2\n",
    "%x = var cand %x, 3:i8 ; end\n\n",
];

fn each_cut<T: Item>(segments: &[&str]) {
    let wanted = of_segments::<T>(segments);
    let text = segments.concat();
    let text = text.as_bytes();
    for cut in 0..=text.len() {
        assert_eq!(in_parts::<T>(Reader::new(), text, &[cut]), wanted, "{cut}");
    }
    let each: Vec<usize> = (0..=text.len()).collect();
    for cuts in [&[][..], &each] {
        assert_eq!(in_parts::<T>(Reader::new(), text, cuts), wanted);
        assert_eq!(in_parts::<T>(Reader::by_segments(), text, cuts), wanted);
    }
    for room in [1, 2, 7, 64, 1000] {
        let found: Vec<Event> = items::<T, _>(BufReader::with_capacity(room, text))
            .map(event)
            .collect();
        assert_eq!(found, wanted, "{room}");
    }
}

#[test]
fn each_text_in_parts() {
    each_cut::<LeftHandSide>(&LHS);
    each_cut::<RightHandSide>(&RHS);
    each_cut::<Replacement>(&REP);
    for text in ["", "; no item", "result 5", "\n\nresult"] {
        each_cut::<RightHandSide>(&[text]);
    }
    assert_eq!(of_segments::<LeftHandSide>(&LHS).len(), 9);
}

#[test]
fn each_split_of_a_small_text() {
    let segments = ["result 1\n", "result"];
    let wanted = of_segments::<RightHandSide>(&segments);
    let text = segments.concat();
    for split in 0..1 << (text.len() - 1) {
        let cuts: Vec<usize> = (1..text.len())
            .filter(|at| split >> (at - 1) & 1 == 1)
            .collect();
        let found = in_parts::<RightHandSide>(Reader::new(), text.as_bytes(), &cuts);
        assert_eq!(found, wanted, "{cuts:?}");
    }
}

// A sequence of numbers that look random.
fn random(state: &mut u64, below: usize) -> usize {
    *state = state
        .wrapping_mul(6364136223846793005)
        .wrapping_add(1442695040888963407);
    (*state >> 33) as usize % below
}

#[test]
fn random_cuts() {
    let wanted = of_segments::<LeftHandSide>(&LHS);
    let text = LHS.concat();
    let mut state = 5;
    for n in 0..10_000 {
        let count = random(&mut state, 12);
        let mut cuts: Vec<usize> = (0..count).map(|_| random(&mut state, text.len())).collect();
        cuts.sort_unstable();
        let reader = if n % 5 == 0 {
            Reader::by_segments()
        } else {
            Reader::new()
        };
        assert_eq!(
            in_parts::<LeftHandSide>(reader, text.as_bytes(), &cuts),
            wanted
        );
    }
}

// What a refusal of a stream shows is what that of the whole text shows.
#[test]
fn refusals_are_those_of_the_whole_text() {
    let refused = || {
        records()
            .into_iter()
            .filter(|record| record.kind == Kind::Lhs && record.is_refused)
    };
    for record in refused() {
        let found = items::<LeftHandSide, _>(record.text.as_bytes()).find_map(Result::err);
        let message = |shown: &str| shown.lines().next().map(String::from);
        let Some(Error::Refused(found)) = found else {
            panic!("{}", record.text)
        };
        if found.offset() == record.text.len() {
            let shown = ParseError::from(found).to_string();
            assert_eq!(message(&shown), message(&record.answer));
        }
    }
    let mut texts: Vec<String> = refused().map(|record| record.text).collect();
    texts.extend(["result %x\n", "\n\ninfer\n", "frob"].map(String::from));
    let many = "%x = var infer %x\n".repeat(12345);
    let mut same = 0;
    for (n, text) in texts.iter().enumerate() {
        let mut begun = vec!["%x = var\ninfer %x (harvestedFromUse)\r\n"];
        if n % 20 == 0 {
            begun.push(&many);
        }
        for begun in begun {
            let text = format!("{begun}{text}");
            let Err(souper_ir::canonical::Error::Refused(wanted)) = code::read(Kind::Lhs, &text)
            else {
                panic!("{text}")
            };
            let found = items::<LeftHandSide, _>(text.as_bytes()).find_map(Result::err);
            let Some(Error::Refused(found)) = found else {
                panic!("{text}")
            };
            // The first invalid segment may end before the whole text is at fault.
            if found.location() == wanted.location() {
                let wanted = event::<LeftHandSide>(Err(wanted.into()));
                assert_eq!(event::<LeftHandSide>(Err(found.into())), wanted);
                same += 1;
            }
        }
    }
    assert!(same > texts.len() / 2);
}

// A hint names lines of the stream.
#[test]
fn hints() {
    let text = "%x = var\ninfer %x\n\n%x = var\n%left = var\n%left = var\ninfer %left\n%y = ad 1, 2\ninfer %y\n%x = var\ninfer %y\n";
    for mut reader in [Reader::<LeftHandSide>::new(), Reader::by_segments()] {
        reader.push(text.as_bytes()).unwrap();
        reader.finish();
        assert!(matches!(reader.next(), Some(Ok(_))));
        for hint in [
            Some("'%left' is defined on line 5"),
            Some("did you mean 'add'?"),
            None,
        ] {
            let Some(Err(Error::Refused(refusal))) = reader.next() else {
                panic!("it is refused")
            };
            assert_eq!(refusal.hint(), hint);
        }
        assert!(reader.next().is_none());
    }
}

#[test]
fn reading_on() {
    let mut reader = Reader::<RightHandSide>::by_segments();
    reader
        .push(b"; first\nresult 1\nresult\nresult 2\nres")
        .unwrap();
    assert!(matches!(reader.next(), Some(Ok(_))));
    assert_eq!((reader.offset(), reader.line()), (8, 2));
    let Some(Err(Error::Refused(refusal))) = reader.next() else {
        panic!("it is refused")
    };
    assert_eq!(
        refusal.location().map(|at| (at.offset, at.line, at.column)),
        Some((23, 3, 7))
    );
    assert!(refusal.is_at_end() && (reader.offset(), reader.line()) == (17, 3));
    assert!(reader.next().is_none());
    reader.push(b"ult 3\n").unwrap();
    assert!(matches!(reader.next(), Some(Ok(_))));
    assert!(reader.next().is_none());
    reader.finish();
    assert!(matches!(reader.next(), Some(Ok(_))));
    assert_eq!((reader.offset(), reader.line()), (33, 5));
    has_ended(&mut reader);
    assert!(reader.next().is_none());
}

// What is pushed is an error.
fn has_ended<T>(reader: &mut Reader<T>) {
    let error = reader.push(b"result 4").unwrap_err();
    assert!(matches!(error, Error::Ended));
    assert_eq!(error.to_string(), "the stream has ended");
}

#[test]
fn bytes_that_are_not_utf8() {
    let text = b"result 1\nresult 2\n; \xc3\xa9 \xe2\x82\nresult 3\nresult 4\n";
    for cut in 0..text.len() {
        let found = in_parts::<RightHandSide>(Reader::new(), text, &[cut]);
        assert_eq!(
            found,
            [Event::Item("result 1".into()), Event::NotUtf8(23, 3)]
        );
    }
    let mut reader = Reader::<RightHandSide>::new();
    reader.push(text).unwrap();
    assert_eq!(reader.by_ref().count(), 2);
    has_ended(&mut reader);
    let mut found = items::<RightHandSide, _>(&text[..]);
    assert_eq!(found.by_ref().count(), 2);
    assert!(found.next().is_none());
    let error = Error::NotUtf8 {
        offset: 23,
        line: 3,
    };
    assert_eq!(error.to_string(), "line 3: not UTF-8 at byte 23");
}

// Two interrupted reads, a part, and a read that fails.
struct Source(u32);

impl Read for Source {
    fn read(&mut self, to: &mut [u8]) -> io::Result<usize> {
        self.0 += 1;
        match self.0 {
            1 | 2 => Err(io::ErrorKind::Interrupted.into()),
            3 => (&b"result 1\nresult 2\nres"[..]).read(to),
            _ => Err(io::Error::other("no more")),
        }
    }
}

#[test]
fn a_read_that_fails() {
    let mut found = items::<RightHandSide, _>(BufReader::new(Source(0)));
    assert!(matches!(found.next(), Some(Ok(_))));
    let Some(Err(error)) = found.next() else {
        panic!("a read failed")
    };
    assert_eq!(error.to_string(), "IO error: no more");
    let source = std::error::Error::source(&error).and_then(|it| it.downcast_ref::<io::Error>());
    assert_eq!(source.map(io::Error::kind), Some(io::ErrorKind::Other));
    assert!(found.next().is_none() && found.next().is_none());
}
