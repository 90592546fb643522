//! Calls from where the heap's buffer of the thread is gone, and calls that it has no room for.
use souper_ir::ast::LeftHandSide;
use souper_ir::parse::parse_left_hand_sides_str;
use std::cell::RefCell;
use std::fmt::Write;
use std::sync::mpsc;

fn read(text: &str) -> Vec<LeftHandSide> {
    parse_left_hand_sides_str(text, None).expect("it is valid")
}

// Prints its item when it is dropped, and reads it again.
struct Last(LeftHandSide, mpsc::Sender<String>);

impl Drop for Last {
    fn drop(&mut self) {
        let text = self.0.to_string();
        let again = read(&text)[0].to_string();
        self.1
            .send(format!("{text}{again}"))
            .expect("somebody listens");
    }
}

thread_local! {
    static LAST: RefCell<Vec<Last>> = const { RefCell::new(Vec::new()) };
}

#[test]
fn a_thread_that_ends_prints() {
    const TEXT: &str = "%x:i8 = var\ninfer %x\n";
    // What a thread uses first is dropped last: the buffer is gone when the value is dropped, or not.
    for buffer_first in [false, true] {
        let (to, from) = mpsc::channel();
        let run = move || {
            if buffer_first {
                read(TEXT);
            }
            LAST.with_borrow_mut(|last| last.push(Last(read(TEXT).remove(0), to)));
        };
        std::thread::spawn(run).join().expect("the thread ends");
        assert_eq!(from.recv(), Ok(format!("{TEXT}{TEXT}")));
    }
}

#[test]
fn an_item_may_be_larger_than_the_buffer() {
    for count in [1, 10, 100, 1_000, 10_000] {
        let mut text = String::from("%0:i64 = var\n");
        for n in 1..count {
            writeln!(text, "%{n}:i64 = add %{}, {n}:i64", n - 1).expect("a String takes all");
        }
        writeln!(text, "infer %{}", count - 1).expect("a String takes all");
        let items = read(&text);
        assert_eq!(items[0].to_string(), text);
        assert_eq!(read(&format!("{text}{text}")).len(), 2);
    }
}
