//! The stored cases of `crates/reader_cases`, read clause by clause, by the calls over lent memory and by the parsers; and clauses about as long as the parsers' first buffers.

mod frames;
mod transcript;

use std::cell::Cell;
use transcript::{by_both, by_lent, by_parser, Case, BUFFER_FULL};

const GIVEN: &[u8] = include_bytes!("../../../crates/reader_cases/stdin");
const SAID: &str = include_str!("../../../crates/reader_cases/stdout");

/// The lines of two transcripts are the same. The first that are not are shown, not all of them.
fn same(found: &str, wanted: &str) {
    for (number, (found, wanted)) in found.lines().zip(wanted.lines()).enumerate() {
        assert_eq!(found, wanted, "line {}", number + 1);
    }
    assert!(found == wanted);
}

#[test]
fn stored_cases_over_lent_memory() {
    same(
        &transcript::transcript(GIVEN, |case| by_lent(case).lines),
        SAID,
    );
}

/// Where a number names no format or mode there is no parser, and the calls over lent memory speak for it.
#[test]
fn stored_cases_by_the_parsers() {
    let unknown = Cell::new(0);
    let found = transcript::transcript(GIVEN, |case| {
        let told = by_parser(case, Some(case.room)).unwrap_or_else(|| {
            unknown.set(unknown.get() + 1);
            by_lent(case)
        });
        told.lines
    });
    same(&found, SAID);
    assert_eq!(unknown.get(), SAID.matches("\nrefused 26 ").count());
}

/// No text is refused by 16, and only those that were get another answer.
#[test]
fn stored_cases_without_a_limit() {
    let mut further = 0;
    transcript::transcript(GIVEN, |case| {
        let told = by_both(case);
        further += usize::from(told.refused == Some(BUFFER_FULL));
        told.lines
    });
    assert_eq!(further, SAID.matches("\nrefused 16 ").count());
    assert!(further > 400);
}

/// How long the parsers' buffers are before they grow, and about as long.
const LENGTHS: [usize; 17] = [
    0, 1, 2, 62, 63, 64, 65, 66, 254, 255, 256, 257, 258, 1023, 1024, 1025, 1026,
];

/// A count of literals and a room.
fn pairs() -> impl Iterator<Item = (usize, usize)> {
    LENGTHS
        .iter()
        .flat_map(|&count| LENGTHS.iter().map(move |&room| (count, room)))
}

/// So many literals, each with the blank before it.
fn literals(count: usize) -> String {
    (1..=count)
        .map(|n| format!(" {}", if n % 3 == 0 { -(n as i32) } else { n as i32 }))
        .collect()
}

/// What is printed where the room is full, at the first literal beyond it: the literals begin after so many bytes of the text and of this line.
fn full(room: usize, text: usize, line: usize, column: usize) -> String {
    let past = literals(room).len() + 1;
    let word: String = literals(room + 1)[past..]
        .bytes()
        .map(|byte| format!("{byte:02x}"))
        .collect();
    let (place, column) = (text + past, column + past + 1);
    format!("refused 16 {place} {room} {line} {column} {word}\n")
}

fn lines(format: u8, room: usize, text: &str) -> String {
    let told = by_both(&Case {
        format,
        mode: 0,
        room,
        text: text.as_bytes(),
    });
    told.lines
}

/// A short clause, a long one, and a short one again.
#[test]
fn clauses_about_as_long_as_the_buffers() {
    for (format, lead, printed) in [
        (0, "", ""),
        (1, "5 ", " 5:"),
        (2, "{3} ", " {3}:"),
        (4, "h ", " h:"),
        (4, "7 ", " 7:"),
    ] {
        for (count, room) in pairs() {
            let (short, lits) = (format!("{lead}0\n"), literals(count));
            let first = format!("header none\nclause{printed}\n");
            let rest = if count <= room {
                format!("clause{printed}{lits}\nclause{printed}\nend\n")
            } else {
                full(room, short.len() + lead.len(), 2, lead.len())
            };
            let text = format!("{short}{lead}{lits} 0\n{short}");
            assert_eq!(lines(format, room, &text), first + &rest);
        }
    }
}

#[test]
fn logs_about_as_long_as_the_buffers() {
    for (count, room) in pairs() {
        let lits = literals(count);
        let wanted = if count <= room {
            format!("verdict none\nliterals{lits}\n")
        } else {
            full(room, 1, 1, 1)
        };
        assert_eq!(lines(3, room, &format!("v{lits} 0\n")), wanted);
    }
}

/// Literals that touch, as in `1-2`, are none, so that half of a text's bytes are always room enough: `by_both` sees that no text is refused by 16.
#[test]
fn literals_as_dense_as_can_be() {
    for row in ["1 ".repeat(700) + "0\n", "1-".repeat(700) + "1 0\n"] {
        for (format, lead) in [(0, ""), (1, "5 "), (2, "{3}"), (3, "v "), (4, "h ")] {
            lines(format, 4096, &format!("{lead}{row}"));
        }
    }
    let cut_off = "1 ".repeat(99) + "1";
    assert!(lines(0, 4096, &cut_off).ends_with("\nrefused 6 199 100 1 200\n"));
}
