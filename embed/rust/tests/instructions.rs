//! Each instruction by its word: the variant, the order of its operands, and the text.
use souper_ir::ast::{AssignmentRhs, Operand, Statement};
use souper_ir::parse::parse_left_hand_sides_str;

const WORDS: [&str; 4] = [
    "hole",
    "zext sext trunc ctpop bswap bitreverse cttz ctlz freeze",
    "add addnsw addnuw addnw sub subnsw subnuw subnw mul mulnsw mulnuw mulnw udiv sdiv udivexact sdivexact \
     urem srem and or xor shl shlnsw shlnuw shlnw lshr lshrexact ashr ashrexact eq ne ult slt ule sle \
     sadd.with.overflow uadd.with.overflow ssub.with.overflow usub.with.overflow smul.with.overflow \
     umul.with.overflow sadd.sat uadd.sat ssub.sat usub.sat extractvalue",
    "select fshl fshr",
];

// `add` with two operands is shown as `add { a: 1, b: 2 }`.
fn is_its_variant(word: &str, operands: usize) {
    let numbers = &["1", "2", "3"][..operands];
    let text = format!("%r = {word} {}", numbers.join(", "));
    let text = format!("{}\ninfer %r\n", text.trim_end());
    let items = parse_left_hand_sides_str(&text, None).unwrap();
    assert_eq!(items[0].to_string(), text);
    let (_, Statement::Assignment(assignment)) = items[0].statements.iter().next().unwrap() else {
        panic!("it is an assignment")
    };
    let AssignmentRhs::Instruction(instruction) = &assignment.value else {
        panic!("it is an instruction")
    };
    let constant = |number| format!("Constant(Constant {{ value: {number}, type: None }})");
    let fields = ["a", "b", "c"].iter().zip(numbers);
    let fields: Vec<String> = fields
        .map(|(field, number)| format!("{field}: {}", constant(number)))
        .collect();
    let shown = format!("{instruction:?}");
    let (variant, rest) = shown.split_at(shown.find(' ').unwrap_or(shown.len()));
    assert_eq!(variant.to_lowercase(), word.replace('.', ""));
    let expected = format!(" {{ {} }}", fields.join(", "));
    assert_eq!(rest, if operands == 0 { "" } else { &expected });
    assert_eq!(instruction.word(), word);
    let values: Vec<_> = instruction
        .operands()
        .map(|operand| match operand {
            Operand::Constant(constant) => constant.value,
            Operand::Value(_) => panic!("it is a constant"),
        })
        .collect();
    assert_eq!(values, &[1, 2, 3][..operands]);
}

#[test]
fn each_word_is_its_variant() {
    let mut passed = 0;
    for (operands, words) in WORDS.iter().enumerate() {
        for word in words.split_whitespace() {
            is_its_variant(word, operands);
            passed += 1;
        }
    }
    assert_eq!(passed, 59);
    println!("Rust: instructions: {passed} passed, 0 failed");
}
