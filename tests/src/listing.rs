//! The text of a listing, from document 01 alone, over the separate solver;
//! and listings written by hand.

use crate::answer;
use crate::generate::Plan;
use crate::sheet::Sheet;
use crate::solver::{self, TERM_BYTES};

/// What the listing program reads at most.
pub const MOST_READ: usize = 4097;
pub const BUDGET: u64 = 1000;
pub const ROOM: usize = 32_768;

/// What the listing program writes for this input.
pub fn listing(input: &[u8]) -> Vec<u8> {
    let problem = &input[..input.len().min(MOST_READ)];
    let mut forms = vec![0; ROOM];
    let mut trace = vec![0; 4 * BUDGET as usize];
    let word = solver::run(problem, BUDGET, &mut forms, &mut trace);
    let mut text = heading(word);
    if let Ok(sheet) = Sheet::read(problem) {
        let size = TERM_BYTES * sheet.terms;
        for at in 0..answer::forms(word) as usize {
            let model = Plan::worked(&sheet, &forms[at * size..(at + 1) * size]);
            text += &line(&sheet, &model);
        }
    }
    text.into_bytes()
}

/// The first line, of this answer.
pub fn heading(word: u64) -> String {
    let verdict = match answer::verdict(word) {
        answer::FORMS => "FORMS",
        answer::FALSE => "FALSE",
        answer::SPENT => "SPENT",
        answer::NO_ROOM => "NOROOM",
        _ => return format!("REFUSED {}\n", answer::number(word)),
    };
    format!("{verdict} {} STEPS {}\n", answer::forms(word), answer::steps(word))
}

/// The line of a form.
pub fn line(sheet: &Sheet, model: &Plan) -> String {
    let mut parts = Vec::new();
    for (&name, value) in sheet.names.iter().zip(&model.values) {
        parts.push(format!("{}={value}", name as char));
    }
    for (&name, members) in sheet.sets.iter().zip(&model.sets) {
        let members: Vec<String> = members.iter().map(i16::to_string).collect();
        parts.push(format!("{}={{{}}}", name as char, members.join(",")));
    }
    parts.join(" ") + "\n"
}

/// A problem and its listing, both written by hand.
pub struct Written {
    pub name: &'static str,
    pub problem: &'static [u8],
    pub text: &'static str,
}

const C1: &[u8] = &[
    0x02, 0x03, 0x00, 0x04, 0x00, 0x01, 0x78, 0x01, 0x41, 0x03, //
    0x01, 0x02, 0x00, 0x0C, 0x00, 0x00, 0x01, 0x04, 0x02, 0x00,
];

/// C1 to C12 of document 01 (C2 and C3 have C1's bytes), and a few more.
pub const WRITTEN: [Written; 20] = [
    Written { name: "C1", problem: C1, text: "FORMS 1 STEPS 5\nx=4 A={3,4}\n" },
    Written { name: "C4", problem: C1.split_at(19).0, text: "REFUSED 2\n" },
    Written { name: "C5", problem: &[0, 0, 0, 0], text: "FORMS 1 STEPS 0\n\n" },
    Written { name: "C6", problem: &[], text: "REFUSED 2\n" },
    Written { name: "C7", problem: &[0, 0, 1, b'A', 1, 6, 0, 0], text: "FALSE 0 STEPS 1\n" },
    Written {
        name: "C8",
        problem: &[0, 1, b'x', 1, b'A', 2, 11, 0, 0, 1, 0, 0],
        text: "FALSE 0 STEPS 2\n",
    },
    Written { name: "C9", problem: &[2, 3, 0, 4, 0, 0, 0, 1, 3, 0, 1], text: "FALSE 0 STEPS 1\n" },
    Written {
        name: "C10",
        problem: &[0, 1, b'x', 3, b'A', b'B', b'C', 2, 7, 0, 1, 2, 1, 0, 2],
        text: "FORMS 2 STEPS 2\nx=32001 A={32001} B={} C={32001}\nx=32001 A={} B={32001} C={32001}\n",
    },
    Written {
        name: "C11",
        problem: &[0, 2, b'x', b'y', 2, b'A', b'B', 3, 8, 0, 1, 1, 0, 0, 1, 1, 1],
        text: "FORMS 1 STEPS 4\nx=32001 y=32002 A={32001} B={32002}\n",
    },
    Written {
        name: "C12",
        problem: &[2, 3, 0, 5, 0, 0, 1, b'A', 1, 12, 0, 0, 1],
        text: "REFUSED 9\n",
    },
    Written {
        name: "constants without names, 3 not 4",
        problem: &[2, 3, 0, 4, 0, 0, 0, 1, 4, 0, 1],
        text: "FORMS 1 STEPS 0\n\n",
    },
    Written {
        name: "number names alone, y = 7",
        problem: &[1, 7, 0, 2, b'p', b'y', 0, 1, 3, 0, 2],
        text: "FORMS 1 STEPS 1\np=32002 y=7\n",
    },
    Written {
        name: "set names alone, K is empty",
        problem: &[0, 0, 2, b'K', b'Z', 1, 11, 0, 0],
        text: "FORMS 1 STEPS 0\nK={} Z={}\n",
    },
    // The witness is term 0.
    Written {
        name: "A not B, nothing else",
        problem: &[0, 0, 2, b'A', b'B', 1, 6, 0, 1],
        text: "FORMS 2 STEPS 1\nA={32001} B={}\nA={} B={32001}\n",
    },
    // The constant is in both; x is term 1; the witness is term 2.
    Written {
        name: "A not B, -3 in both, x in B",
        problem: &[1, 0xFD, 0xFF, 1, b'x', 2, b'A', b'B', 4, 1, 0, 0, 1, 0, 1, 1, 1, 1, 6, 0, 1],
        text: "FORMS 2 STEPS 4\nx=32002 A={-3,32003} B={-3,32002}\nx=32002 A={-3} B={-3,32002,32003}\n",
    },
    // A = {32000, 0, -32000, -1, 1, 0}; x in A. The split goes in entry order.
    Written {
        name: "both ends of the range",
        problem: &[
            5, 0x00, 0x83, 0xFF, 0xFF, 0, 0, 1, 0, 0x00, 0x7D, 1, b'x', 1, b'A', 2, //
            11, 0, 6, 4, 2, 0, 1, 3, 2, 1, 5, 0,
        ],
        text: "FORMS 5 STEPS 7\n\
            x=32000 A={-32000,-1,0,1,32000}\n\
            x=0 A={-32000,-1,0,1,32000}\n\
            x=-32000 A={-32000,-1,0,1,32000}\n\
            x=-1 A={-32000,-1,0,1,32000}\n\
            x=1 A={-32000,-1,0,1,32000}\n",
    },
    // -10000, -1000, -909, -100, -10, -9, 0, 5, 10, 90, 100, 1000, 10000, 20305
    Written {
        name: "zeros within numbers",
        problem: &[
            14, 0xF0, 0xD8, 0x18, 0xFC, 0x73, 0xFC, 0x9C, 0xFF, 0xF6, 0xFF, 0xF7, 0xFF, 0, 0, 5, 0, 10, 0, //
            90, 0, 100, 0, 0xE8, 0x03, 0x10, 0x27, 0x51, 0x4F, 0, 1, b'N', 1, //
            11, 0, 14, 13, 12, 11, 10, 9, 8, 7, 6, 5, 4, 3, 2, 1, 0,
        ],
        text: "FORMS 1 STEPS 14\n\
            N={-10000,-1000,-909,-100,-10,-9,0,5,10,90,100,1000,10000,20305}\n",
    },
    // a = b, b = c, c in M, 9 in M: one class of three names, one member.
    Written {
        name: "three names for one member",
        problem: &[
            1, 9, 0, 3, b'a', b'b', b'c', 1, b'M', 4, 3, 1, 2, 3, 2, 3, 1, 3, 0, 1, 0, 0,
        ],
        text: "FORMS 1 STEPS 4\na=32002 b=32002 c=32002 M={9,32002}\n",
    },
    // a, c in M; c = 9, so M has 9 once, before a's value.
    Written {
        name: "a name that is a constant",
        problem: &[
            1, 9, 0, 2, b'a', b'c', 1, b'M', 4, 1, 1, 0, 1, 2, 0, 1, 0, 0, 3, 2, 0,
        ],
        text: "FORMS 1 STEPS 4\na=32002 c=9 M={9,32002}\n",
    },
    // The sample of crates/listing: C = A ∪ B, A = {-300, 7}, x in C, B not D.
    Written {
        name: "the program's sample",
        problem: &[
            2, 0xD4, 0xFE, 7, 0, 1, b'x', 4, b'A', b'B', b'C', b'D', 4, //
            7, 0, 1, 2, 11, 0, 2, 0, 1, 1, 2, 2, 6, 1, 3,
        ],
        text: "FORMS 6 STEPS 13\n\
            x=-300 A={-300,7} B={32004} C={-300,7,32004} D={}\n\
            x=-300 A={-300,7} B={} C={-300,7} D={32004}\n\
            x=7 A={-300,7} B={32004} C={-300,7,32004} D={}\n\
            x=7 A={-300,7} B={} C={-300,7} D={32004}\n\
            x=32003 A={-300,7} B={32003,32004} C={-300,7,32003,32004} D={}\n\
            x=32003 A={-300,7} B={32003} C={-300,7,32003} D={32004}\n",
    },
];

#[cfg(test)]
mod test {
    use super::*;

    #[test]
    fn listings_written_by_hand() {
        for case in &WRITTEN {
            assert_eq!(String::from_utf8(listing(case.problem)).unwrap(), case.text, "{}", case.name);
        }
    }

    #[test]
    fn no_more_than_4097_bytes_are_read() {
        let mut input = C1.to_vec();
        for (length, text) in [(21, "REFUSED 10\n"), (4096, "REFUSED 10\n"), (4097, "REFUSED 1\n"), (9000, "REFUSED 1\n")] {
            input.resize(length, 0);
            assert_eq!(listing(&input), text.as_bytes(), "{length}");
        }
    }
}
