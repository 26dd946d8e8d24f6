use crate::{decode, encode};

fn hex(text: &str) -> Vec<u8> {
    text.split_whitespace().map(|byte| u8::from_str_radix(byte, 16).unwrap()).collect()
}

fn encoded(text: &str) -> Vec<u8> {
    encode(text.as_bytes()).unwrap_or_else(|why| panic!("{text}: {why}"))
}

fn decoded(bytes: &[u8]) -> String {
    String::from_utf8(decode(bytes).unwrap_or_else(|why| panic!("{bytes:02X?}: {why}"))).unwrap()
}

const C1: &str = "02 03 00 04 00 01 78 01 41 03 01 02 00 0C 00 00 01 04 02 00";

#[test]
fn c1() {
    let text = "x in A\nA = [3, 4]\nx != 3\n";
    assert_eq!(encoded(text), hex(C1));
    assert_eq!(decoded(&hex(C1)), text);
}

#[test]
fn each_form_both_ways() {
    for (text, bytes) in [
        ("", "00 00 00 00"),
        ("x in A", "00 01 78 01 41 01 01 00 00"),
        ("x not in A", "00 01 78 01 41 01 02 00 00"),
        ("x = y", "00 02 78 79 00 01 03 00 01"),
        ("y = x", "00 02 78 79 00 01 03 01 00"),
        ("x = 3", "01 03 00 01 78 00 01 03 01 00"),
        ("3 = x", "01 03 00 01 78 00 01 03 00 01"),
        ("x != 3", "01 03 00 01 78 00 01 04 01 00"),
        ("A = B", "00 00 02 41 42 01 05 00 01"),
        ("A != B", "00 00 02 41 42 01 06 00 01"),
        ("A != A", "00 00 01 41 01 06 00 00"),
        ("C = A + B", "00 00 03 41 42 43 01 07 00 01 02"),
        ("A = C + B", "00 00 03 41 42 43 01 07 02 01 00"),
        ("A disjoint B", "00 00 02 41 42 01 08 00 01"),
        ("A subset B", "00 00 02 41 42 01 09 00 01"),
        ("C = A & B", "00 00 03 41 42 43 01 0A 00 01 02"),
        ("A = {3, x, 3}", "01 03 00 01 78 01 41 01 0B 00 03 00 01 00"),
        ("A = {}", "00 00 01 41 01 0B 00 00"),
        ("A = [3, 6]", "04 03 00 04 00 05 00 06 00 00 01 41 01 0C 00 00 03"),
        ("A = [6, 3]", "02 03 00 06 00 00 01 41 01 0C 00 01 00"),
        ("A = [3, 3]", "01 03 00 00 01 41 01 0C 00 00 00"),
        ("A = [-1, 1]", "03 FF FF 00 00 01 00 00 01 41 01 0C 00 00 02"),
        ("-5 in A", "01 FB FF 00 01 41 01 01 00 00"),
        ("-32000 = 32000", "02 00 83 00 7D 00 00 01 03 00 01"),
        ("numbers -4 3", "02 FC FF 03 00 00 00 00"),
        ("variables x y", "00 02 78 79 00 00"),
        ("sets A B", "00 00 02 41 42 00"),
    ] {
        assert_eq!(encoded(text), hex(bytes), "{text}");
        assert_eq!(decoded(&hex(bytes)).trim_end(), text);
    }
}

#[test]
fn layout_is_free() {
    let text = "# C1\r\n\n  x   in A # x\n\tA=[3,4]\nnumbers 4 3 4\nsets A\nx!=3\nvariables x";
    assert_eq!(encoded(text), hex(C1));
    assert_eq!(encode(b"x in A # \xFF"), Ok(encoded("x in A")));
    assert_eq!(encoded("x=-5"), encoded("x = -5"));
    assert_eq!(encoded("x = -0"), encoded("x = 0"));
    assert_eq!(encoded("A={3,x}"), encoded("A = { 3 , x }"));
    // Names are sorted, constraints keep their order.
    assert_eq!(encoded("y in B\nx in A"), hex("00 02 78 79 02 41 42 02 01 01 01 01 00 00"));
}

#[test]
fn declarations_are_printed_only_where_needed() {
    let text = "numbers 9\nvariables z\nsets Z\nA = [3, 6]\n";
    assert_eq!(decoded(&encoded(&format!("numbers 4 5\nsets A\n{text}"))), text);
    assert_eq!(decoded(&encoded("A = [6, 3]\nnumbers 4")), "numbers 4\nA = [6, 3]\n");
}

fn refused(text: &[u8], start: &str) {
    let why = encode(text).expect_err(&String::from_utf8_lossy(text));
    assert!(why.starts_with(start), "{why}\nbut wanted\n{start}");
}

#[test]
fn text_messages() {
    for (text, start) in [
        ("\n\nx inn A", "line 3: expected `in`, `not in`, `=` or `!=`, found `inn`; a line is one of\n  x in A"),
        ("x", "line 1: expected `in`, `not in`, `=` or `!=`, found the end of the line;"),
        ("x not A", "line 1: expected `in`, found `A`;"),
        ("x in 3", "line 1: expected a set (A to Z), found `3`;"),
        ("x in A\nx in {3}", "line 2: expected a set (A to Z), found `{`;"),
        ("x in A B", "line 1: expected the end of the line, found `B`;"),
        ("x = A", "line 1: expected a number or a variable (a to z), found `A`;"),
        ("x != ", "line 1: expected a number or a variable (a to z), found the end of the line;"),
        ("x = - 5", "line 1: expected a number or a variable (a to z), found `-`;"),
        ("x ≠ 3", "line 1: expected `in`, `not in`, `=` or `!=`, found `≠`;"),
        ("A in B", "line 1: expected `=`, `!=`, `disjoint` or `subset`, found `in`;"),
        ("A = x", "line 1: expected a set (A to Z), `{` or `[`, found `x`;"),
        ("C = A - B", "line 1: expected `+`, `&` or the end of the line, found `-`;"),
        ("C = A + B + D", "line 1: expected the end of the line, found `+`;"),
        ("A = {3 x}", "line 1: expected `,` or `}`, found `x`;"),
        ("A = {3,}", "line 1: expected a number or a variable (a to z), found `}`;"),
        ("A = {", "line 1: expected a number or a variable (a to z), found the end of the line;"),
        ("A = [x, 6]", "line 1: expected a number, found `x`;"),
        ("A = [3 6]", "line 1: expected `,`, found `6`;"),
        ("A = [3, 6", "line 1: expected `]`, found the end of the line;"),
        ("A = {} {", "line 1: expected the end of the line, found `{`;"),
        ("sector 3", "line 1: expected a number, a variable (a to z), a set (A to Z), `numbers`, `variables` or `sets`, found `sector`;"),
        ("numbers", "line 1: expected a number, found the end of the line;"),
        ("numbers 3, 4", "line 1: expected a number, found `,`;"),
        ("variables x 3", "line 1: expected a variable (a to z), found `3`;"),
        ("sets a", "line 1: expected a set (A to Z), found `a`;"),
    ] {
        refused(text.as_bytes(), start);
    }
    refused(b"x in A\nx \xFF A", "line 2: this is not UTF-8 text");
}

/// Bytes given as text and text given as bytes, whole or damaged: each is told where it can go.
#[test]
fn the_other_given() {
    for bytes in [C1, "00 00 00 00", "02 03 00 04 00 01 78", "00 00 01 41 01 0C 00", "01"] {
        refused(&hex(bytes), "these are bytes, not text (UTF-8): target/bin/listing < FILE ");
    }
    // As text it would be a comment.
    let constants = (35..45).flat_map(|n| [n, 0]);
    let comment: Vec<u8> = [10].into_iter().chain(constants).chain([0, 0, 0]).collect();
    decoded(&comment);
    refused(&comment, "these are bytes, not text");

    for text in ["x in A\n", "# C1\nx in A\nA = [3, 4]\nx != 3\n", "\tA = {}"] {
        let why = decode(text.as_bytes()).unwrap_err();
        assert!(why.contains("\nthis is text, not bytes: tools/list FILE "), "{why}");
    }
    for bytes in ["", "02 03 00 04 00 01 78"] {
        let why = decode(&hex(bytes)).unwrap_err();
        assert!(why.starts_with("question 2: ") && !why.contains("text"), "{why}");
    }
}

#[test]
fn limit_messages() {
    for number in ["32001", "-32001", "40000", "99999999999999999999", "-99999999999999999999"] {
        let start = format!("line 2: the number {number} is not from -32000 to 32000");
        refused(format!("\nx = {number}").as_bytes(), &start);
    }
    encoded("sets A B C D E F G H");
    refused(b"sets A B C D E F G\nH = I", "line 2: 9 sets, but at most 8 are allowed");

    encoded(&"x in A\n".repeat(48));
    refused(
        "x in A\n".repeat(49).as_bytes(),
        "line 49: 49 constraints, but at most 48 are allowed",
    );

    encoded("A = [1, 60]\nA != B\nB != C\nvariables x y");
    refused(
        b"A = [1, 60]\nA != B\nB != C\nvariables x y z",
        "line 4: 65 terms, but at most 64 are allowed: there are 60 numbers, 3 variables and 2 witnesses",
    );
    refused(b"A = [-32000, 32000]", "line 1: 64001 terms, but at most 64");

    let list = |count: usize| format!("A = {{{}}}\n", vec!["x"; count].join(","));
    encoded(&list(255));
    refused(list(256).as_bytes(), "line 1: 256 entries of a list, but at most 255 are allowed");

    // 6 bytes around the constraints; 15 lists of 258 bytes, and one of 220.
    let most = list(255).repeat(15) + &list(217);
    assert_eq!(encoded(&most).len(), 4_096);
    assert_eq!(encoded(&decoded(&encoded(&most))), encoded(&most));
    refused(
        format!("{most}variables y").as_bytes(),
        "line 17: 4097 bytes, but at most 4096 are allowed",
    );
}

#[test]
fn each_question() {
    for (question, bytes) in [
        (2, ""),
        (2, "02 03 00 04"),
        (2, "00"),
        (2, "00 02 78"),
        (2, "00 00"),
        (2, "00 00 02 41"),
        (2, "00 00 00"),
        (2, "00 00 00 01"),
        (2, "02 03 00 04 00 01 78 01 41 03 01 02 00 0C 00 00 01 04 02"),
        (2, "00 00 01 41 01 0B 00"),
        (2, "00 00 01 41 01 0B 09 01"), // the missing entry is asked about before set 9
        (3, "02 03 00 03 00 00 00 00"),
        (3, "02 04 00 03 00 00 00 00"),
        (3, "01 01 7D 00 00 00"),
        (3, "01 FF 82 00 00 00"),
        (3, "02 03 00 FF FF"), // unsigned, they would ascend
        (4, "00 01 41 00 00"),
        (4, "00 02 79 78 00 00"),
        (4, "00 02 78 78"),
        (4, "00 01 FF 00 00"),
        (5, "00 00 01 61 00"),
        (5, "00 00 02 42 41 00"),
        (5, "00 00 09 41 42 43 44 45 46 47 48 49 00"),
        (6, "00 00 00 31"),
        (7, "00 00 00 01 00"),
        (7, "00 00 00 01 0D"),
        (8, "00 01 78 01 41 01 01 01 00"),
        (8, "00 01 78 01 41 01 01 00 01"),
        (8, "00 01 78 01 41 01 0B 00 02 00 01"),
        (8, "00 00 02 41 42 02 06 00 01 01 00 00"), // a witness cannot be named
        (8, "00 00 01 41 01 0C 00 00 00"),
        (9, "00 01 78 01 41 01 0C 00 00 00"),
        (9, "02 03 00 05 00 00 01 41 01 0C 00 00 01"),
        (10, "00 00 00 00 00"),
    ] {
        let why = decode(&hex(bytes)).expect_err(bytes);
        assert!(why.starts_with(&format!("question {question}: ")), "{bytes}: {why}");
    }
    let why = decode(&[0; 4_097]).unwrap_err();
    assert_eq!(why, "question 1: 4097 bytes, but at most 4096 are allowed");
    let constants = |count: u8| -> Vec<u8> {
        let numbers = (0..count).flat_map(|n| [n, 0]);
        [count].into_iter().chain(numbers).chain(hex("00 01 41 01 06 00 00")).collect()
    };
    decoded(&constants(63));
    let why = decode(&constants(64)).unwrap_err();
    assert!(why.starts_with("question 11: 65 terms, but at most 64"), "{why}");
}

/// Marsaglia's xorshift, from a fixed seed.
struct Random(u64);

impl Random {
    fn below(&mut self, bound: usize) -> usize {
        self.0 ^= self.0 << 13;
        self.0 ^= self.0 >> 7;
        self.0 ^= self.0 << 17;
        (self.0 >> 11) as usize % bound
    }
}

/// The bytes of an acceptable problem, written without the package's own writer.
fn acceptable(random: &mut Random) -> Vec<u8> {
    // Constants with gaps from 1 to 3, from somewhere in the range.
    let anywhere = random.below(63_920) as i32 - 32_000;
    let mut constants = vec![[-32_000, -3, 0, 31_919, anywhere][random.below(5)]];
    for _ in 0..random.below(28) {
        constants.push(constants[constants.len() - 1] + [1, 1, 1, 2, 3][random.below(5)]);
    }
    constants.truncate(random.below(constants.len() + 1));
    let mut pick = |from: u8, most: usize, of: usize| -> Vec<u8> {
        let wanted = random.below(of + 1);
        (0..of as u8).filter(|_| random.below(of) < wanted).map(|n| from + n).take(most).collect()
    };
    let (variables, sets) = (pick(b'a', 12, 26), pick(b'A', 8, 26));
    let (named, mut witnesses) = (constants.len() + variables.len(), 0);

    let mut bytes = vec![constants.len() as u8];
    bytes.extend(constants.iter().flat_map(|&n| (n as i16).to_le_bytes()));
    bytes.push(variables.len() as u8);
    bytes.extend(&variables);
    bytes.push(sets.len() as u8);
    bytes.extend(&sets);
    let mut lines = Vec::new();
    for _ in 0..random.below(49) {
        let kind = 1 + random.below(12);
        let (wants_terms, wants_sets) = (kind < 5, kind != 3 && kind != 4);
        if wants_terms && named == 0 || wants_sets && sets.is_empty() {
            continue;
        }
        let mut term = || random.below(named.max(1)) as u8;
        let (t, u) = (term(), term());
        let mut set = || random.below(sets.len().max(1)) as u8;
        let (a, b, c) = (set(), set(), set());
        lines.push(match kind {
            1 | 2 => vec![kind as u8, t, a],
            3 | 4 => vec![kind as u8, t, u],
            7 | 10 => vec![kind as u8, a, b, c],
            11 => {
                let most = if named == 0 { 0 } else { [2, 5, 255][random.below(3)] };
                let count = random.below(most + 1);
                let mut line = vec![11, a, count as u8];
                line.extend((0..count).map(|_| random.below(named) as u8));
                line
            }
            12 => {
                if constants.is_empty() {
                    continue;
                }
                let i = random.below(constants.len());
                let mut j = random.below(constants.len());
                while j > i && constants[j] - constants[i] != (j - i) as i32 {
                    j -= 1;
                }
                vec![12, a, i as u8, j as u8]
            }
            6 if named + witnesses == 64 => continue,
            _ => {
                witnesses += usize::from(kind == 6);
                vec![kind as u8, a, b]
            }
        });
    }
    while bytes.len() + 1 + lines.concat().len() > 4_096 {
        lines.pop();
    }
    bytes.push(lines.len() as u8);
    bytes.extend(lines.concat());
    bytes
}

#[test]
fn random_problems_both_ways() {
    let mut random = Random(0x5EED_2024_0001);
    let mut kinds = [0; 13];
    for _ in 0..3_000 {
        let bytes = acceptable(&mut random);
        let text = decoded(&bytes);
        assert_eq!(encoded(&text), bytes, "{text}");
        // Each declared name is needed.
        for (at, line) in text.lines().enumerate() {
            let words: Vec<&str> = line.split(' ').collect();
            if !["numbers", "variables", "sets"].contains(&words[0]) {
                continue;
            }
            for left_out in 1..words.len() {
                let mut kept = words.clone();
                kept.remove(left_out);
                let mut lines: Vec<String> = text.lines().map(str::to_string).collect();
                lines[at] = if kept.len() > 1 { kept.join(" ") } else { String::new() };
                assert_ne!(encoded(&lines.join("\n")), bytes, "{text}");
            }
        }
        for constraint in crate::bytes::read(&bytes).unwrap().constraints {
            kinds[usize::from(constraint.kind_and_operands().0)] += 1;
        }
    }
    assert!(kinds[1..].iter().all(|&count| count > 1_000), "{kinds:?}");
}

#[test]
fn damaged_input_is_refused_or_goes_both_ways() {
    let mut random = Random(0x5EED_2024_0002);
    let symbols = b"xyzABC 3-59=!+&{}[],#\nin not disjoint subset numbers sets\xE2\x89\xA0";
    let mut accepted = [0, 0];
    for _ in 0..6_000 {
        let mut bytes = acceptable(&mut random);
        let mut text = decode(&bytes).unwrap();
        for _ in 0..1 + random.below(3) {
            let at = random.below(bytes.len());
            match random.below(3) {
                0 => bytes[at] = random.below(256) as u8,
                1 => bytes[at] = bytes[at].wrapping_add(1),
                _ => bytes.truncate(at.max(1)),
            }
            let at = random.below(text.len() + 1);
            text.insert(at, symbols[random.below(symbols.len())]);
        }
        if let Ok(text) = decode(&bytes) {
            assert_eq!(encode(&text), Ok(bytes));
            accepted[0] += 1;
        }
        if let Ok(bytes) = encode(&text) {
            assert_eq!(encode(&decode(&bytes).unwrap()), Ok(bytes));
            accepted[1] += 1;
        }
    }
    assert!(accepted.iter().all(|&count| count > 100), "{accepted:?}");
}
