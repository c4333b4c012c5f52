//! The parsers as values: iterators that stay ended, sources that fail, what is printed of them, clones, threads; and cursors that belong to no text, or to another one.

mod random;

use latchtwig::formula::{self, Clause, Label};
use latchtwig::lent::{self, Cursor, Next};
use latchtwig::sat_solver_log::{self, parse_log, parse_log_from_read, SolverLog, Verdict};
use latchtwig::{cnf, gcnf, wcnf, wcnf2022, Config, Error, Format, Mode, Refusal, Writer};
use random::Random;
use std::fmt::Debug;
use std::io::{self, Read};
use std::iter::FusedIterator;
use std::thread;

/// One clause, then the end or a refusal, and nothing after it.
fn ends<T: Debug>(mut parser: impl FusedIterator<Item = Result<T, Refusal>>, refused: Option<u32>) {
    assert!(parser.next().unwrap().is_ok());
    if let Some(number) = refused {
        assert_eq!(parser.next().unwrap().unwrap_err().number, number);
    }
    for _ in 0..3 {
        assert!(parser.next().is_none());
    }
}

#[test]
fn iterators_stay_ended() {
    let config = Config::default();
    ends(cnf::Parser::new(b"1 0\n", config).unwrap(), None);
    ends(cnf::Parser::new(b"1 0\nx\n2 0\n", config).unwrap(), Some(9));
    ends(wcnf::Parser::new(b"5 1 0\n", config).unwrap(), None);
    ends(wcnf::Parser::new(b"5 1 0\n5\n", config).unwrap(), Some(8));
    ends(gcnf::Parser::new(b"{1} 1 0\n", config).unwrap(), None);
    ends(
        gcnf::Parser::new(b"{1} 1 0\n{1} 1", config).unwrap(),
        Some(6),
    );
    ends(wcnf2022::Parser::new(b"h 1 0\n", config).unwrap(), None);
    ends(
        wcnf2022::Parser::new(b"h 1 0\n0 1 0\n", config).unwrap(),
        Some(32),
    );
}

/// The end and a refusal are answered again, and no literals stand then. The iterator of the same parser says them once more.
#[test]
fn last_answers_are_repeated() {
    let mut parser = cnf::Parser::new(b"1 2 0\n", Config::default()).unwrap();
    assert_eq!(parser.next_clause(), Ok(Some(&[1, 2][..])));
    assert_eq!(parser.as_formula().lits(), [1, 2]);
    for _ in 0..3 {
        assert_eq!(parser.next_clause(), Ok(None));
        assert_eq!(parser.as_formula().lits(), []);
    }
    assert_eq!((parser.as_formula().place(), parser.next()), (6, None));

    let mut parser = cnf::Parser::new(b"1 2 0\n3 4 five", Config::default()).unwrap();
    assert_eq!(parser.next_clause(), Ok(Some(&[1, 2][..])));
    let refusal = parser.next_clause().unwrap_err();
    let wanted = Refusal {
        number: 6,
        place: 10,
        line: 2,
        column: 5,
    };
    assert_eq!(refusal, wanted);
    assert_eq!(parser.as_formula().lits(), [3, 4]);
    assert_eq!(parser.as_formula().stopped_at(&refusal), b"five");
    for _ in 0..3 {
        assert_eq!(parser.next_clause(), Err(refusal));
        assert_eq!(parser.as_formula().lits(), []);
    }
    assert_eq!((parser.next(), parser.next()), (Some(Err(refusal)), None));
}

/// Bytes, and then a failure.
struct Failing(&'static [u8]);

impl Read for Failing {
    fn read(&mut self, into: &mut [u8]) -> io::Result<usize> {
        if self.0.is_empty() {
            return Err(io::Error::new(
                io::ErrorKind::ConnectionReset,
                "the line went dead",
            ));
        }
        let taken = self.0.len().min(into.len()).min(3);
        into[..taken].copy_from_slice(&self.0[..taken]);
        self.0 = &self.0[taken..];
        Ok(taken)
    }
}

fn dead<T: Debug>(read: Result<T, Error>) {
    let error = read.unwrap_err();
    assert!(
        matches!(&error, Error::Io(error) if error.kind() == io::ErrorKind::ConnectionReset),
        "{error:?}"
    );
    assert_eq!(error.to_string(), "the line went dead");
}

/// Half a text is no text: what was read before the failure is not taken for one.
#[test]
fn sources_that_fail() {
    let config = Config::default();
    dead(cnf::Parser::from_read(Failing(b"1 0\n"), config));
    dead(wcnf::Parser::from_read(Failing(b"5 1 0\n"), config));
    dead(gcnf::Parser::from_read(Failing(b"{1} 1 0\n"), config));
    dead(wcnf2022::Parser::from_read(Failing(b""), config));
    dead(formula::Parser::from_read(
        Format::Plain,
        Failing(b"p nonsense"),
        config,
    ));
    dead(parse_log_from_read(
        Failing(b"s SATISFIABLE\n"),
        sat_solver_log::Config::default(),
    ));
}

#[test]
fn sources_that_are_refused() {
    let config = Config::default();
    let refused = [
        cnf::Parser::from_read(&b"p wcnf"[..], config).map(|_| ()),
        wcnf::Parser::from_read(&b"p wcnf x"[..], config).map(|_| ()),
        gcnf::Parser::from_read(&b"p gcnf 1 x"[..], config).map(|_| ()),
        formula::Parser::from_read(Format::Log, &b""[..], config).map(|_| ()),
        parse_log_from_read(&b"s MAYBE"[..], sat_solver_log::Config::default()).map(|_| ()),
    ];
    let numbers = refused.map(|read| match read {
        Err(Error::Refused(refusal)) => refusal.number,
        other => panic!("{other:?}"),
    });
    assert_eq!(numbers, [1, 2, 3, 26, 17]);
}

/// A lent text, one that is kept and one from a source are read alike.
#[test]
fn texts_from_everywhere() {
    let text = b"p cnf 300 2\n1 0\n"
        .iter()
        .chain(b"2 ".repeat(300).iter())
        .chain(b"0\n")
        .copied()
        .collect::<Vec<u8>>();
    let config = Config::default();
    let lent: Vec<_> = cnf::Parser::new(&text, config).unwrap().collect();
    let kept: Vec<_> = cnf::Parser::from_vec(text.clone(), config)
        .unwrap()
        .collect();
    let read: Vec<_> = cnf::Parser::from_read(&text[..], config).unwrap().collect();
    assert_eq!(lent, [Ok(vec![1]), Ok(vec![2; 300])]);
    assert_eq!((&kept, &read), (&lent, &lent));
    assert_eq!(
        cnf::Parser::from_vec(text.clone(), config)
            .unwrap()
            .as_formula()
            .text(),
        text
    );
}

#[test]
fn debug_keeps_the_text_to_itself() {
    let text = b"c a secret\np cnf 7654321 0\n7654123 0\n";
    let mut parser = cnf::Parser::new(text, Config::default()).unwrap();
    for _ in 0..2 {
        for printed in [
            format!("{parser:?}"),
            format!("{parser:#?}"),
            format!("{:?}", parser.as_formula()),
        ] {
            assert!(
                printed.contains("Parser") && printed.contains("7654321"),
                "{printed}"
            );
            assert!(
                !printed.contains("secret") && !printed.contains("7654123"),
                "{printed}"
            );
            // The bytes as numbers.
            assert!(
                !printed.contains("115, 101") && printed.len() < 600,
                "{printed}"
            );
        }
        parser.next_clause().unwrap();
    }
}

fn crosses_threads<T: Send + Sync + Unpin>() {}

#[test]
fn types_cross_threads() {
    crosses_threads::<cnf::Parser<'_>>();
    crosses_threads::<wcnf::Parser<'_>>();
    crosses_threads::<gcnf::Parser<'_>>();
    crosses_threads::<wcnf2022::Parser<'_>>();
    crosses_threads::<formula::Parser<'_>>();
    crosses_threads::<Clause<'_>>();
    crosses_threads::<(Label, wcnf2022::Weight, Verdict, SolverLog)>();
    crosses_threads::<(cnf::Header, wcnf::Header, gcnf::Header, lent::Header)>();
    crosses_threads::<(Cursor, Next, lent::Opening, lent::Log)>();
    crosses_threads::<(Config, sat_solver_log::Config, Format, Mode)>();
    crosses_threads::<(Refusal, Error, Writer<Vec<u8>>)>();
    let kept = cnf::Parser::from_vec(b"1 0\n2 0\n".to_vec(), Config::default()).unwrap();
    let elsewhere = thread::spawn(move || kept.count());
    assert_eq!(elsewhere.join().unwrap(), 2);
}

/// A clone goes on from where it was made, with literals of its own, whatever the other does.
#[test]
fn clones_go_on_alone() {
    let text = b"1 0\n2 3 0\n4 0\nx\n";
    let kept = || cnf::Parser::from_vec(text.to_vec(), Config::default()).unwrap();
    for mut one in [cnf::Parser::new(text, Config::default()).unwrap(), kept()] {
        assert_eq!(one.next_clause(), Ok(Some(&[1][..])));
        let mut other = one.clone();
        assert_eq!(other.as_formula().lits(), [1]);
        assert_eq!(one.next_clause(), Ok(Some(&[2, 3][..])));
        assert_eq!(
            (one.as_formula().lits(), other.as_formula().lits()),
            (&[2, 3][..], &[1][..])
        );
        assert_eq!(one.by_ref().take(9).count(), 2);
        assert_eq!(other.next_clause(), Ok(Some(&[2, 3][..])));
        let rest: Vec<_> = other
            .map(|clause| clause.map_err(|refusal| refusal.number))
            .take(9)
            .collect();
        assert_eq!(rest, [Ok(vec![4]), Err(9)]);
        assert_eq!(one.next(), None);
    }
}

/// A cursor that no opening left: refusal 26, again and again, with no literals.
#[test]
fn no_cursor() {
    for mut cursor in [
        Cursor::default(),
        Cursor::from_words([0; 12]),
        Cursor::from_words([u64::MAX; 12]),
    ] {
        let refusal = Refusal {
            number: 26,
            place: 0,
            line: 0,
            column: 0,
        };
        for text in [&b"1 0\n"[..], b""] {
            let mut lits = [7; 3];
            assert_eq!(
                cursor.next_clause(text, &mut lits),
                Next::Refused { refusal, count: 0 }
            );
            assert_eq!(lits, [7; 3]);
        }
    }
}

/// With another text, an old cursor reads what stands from its place on.
#[test]
fn an_old_cursor_and_another_text() {
    let (_, mut cursor) = lent::open(0, 0, b"1 0\n2 0\n");
    let mut lits = [0; 4];
    assert_eq!(
        cursor.next_clause(b"1 0\n2 0\n", &mut lits),
        Next::Clause { extra: 0, count: 1 }
    );
    assert_eq!(cursor.place(), 4);
    let old = cursor;
    assert_eq!(
        cursor.next_clause(b"9 0\n-7 5 0\n", &mut lits),
        Next::Clause { extra: 0, count: 2 }
    );
    assert_eq!((lits, cursor.place()), ([-7, 5, 0, 0], 11));
    for length in 0..12 {
        let text = &b"9 0\n-7 5 0\n"[..length.min(11)];
        let mut cursor = Cursor::from_words(old.to_words());
        for room in [0, 1, 4] {
            told(cursor.next_clause(text, &mut lits[..room]), room);
        }
    }
    // A refusal keeps the cursor's place, though the text ends before it, and no word stands there.
    let whole = b"p cnf 1 2\n1 0\n";
    let (_, mut cursor) = lent::open(0, 0, whole);
    cursor.next_clause(whole, &mut lits);
    let refusal = match cursor.next_clause(b"1", &mut lits) {
        Next::Refused { refusal, count: 0 } => refusal,
        other => panic!("{other:?}"),
    };
    assert_eq!((refusal.number, refusal.place), (9, 14));
    assert_eq!(lent::stopped_at(0, b"1", refusal.place), b"");
}

/// How many literals are told, which are no more than there is room for.
fn told(next: Next, room: usize) -> usize {
    let count = match next {
        Next::Clause { count, .. } | Next::Refused { count, .. } => count,
        Next::Ended => 0,
    };
    assert!(count <= room, "{next:?} of {room}");
    count
}

const TEXTS: [&[u8]; 5] = [
    b"",
    b"p cnf 3 2\n1 -3 0\n-2 0\n",
    b"5 1 -2 0\n{2} 1 0\nh 3 0\n",
    b"1 2 3 4 5 6 7 8 9 10 11 12 0\nc\r\r\n 0\r0",
    b"99999999999999999999 0",
];

/// Words of a cursor: any, or in most places such as openings and calls leave.
fn any_words(random: &mut Random) -> [u64; 12] {
    let mut words = [0; 12].map(|_: u64| random.bits(64));
    for (at, limit) in [(0, 12), (1, 4), (2, 20), (4, 4), (5, 6), (6, 3), (7, 2)] {
        if random.below(8) > 0 {
            words[at] = random.below(limit) as u64;
        }
    }
    words
}

/// Any words are safe with any text and room: what is told fits, and the rest of the buffer stays. Words of no format are refused by 26.
#[test]
fn any_words_are_safe() {
    const PATTERN: [i32; 8] = [-1_700_000_000; 8];
    let random = &mut Random(5);
    let (mut ended, mut clauses, mut refused, mut unknown) = (0, 0, 0, 0);
    for _ in 0..100_000 {
        let words = any_words(random);
        let mut cursor = Cursor::from_words(words);
        assert_eq!(cursor.to_words(), words);
        let (text, room) = (TEXTS[random.below(TEXTS.len())], random.below(9));
        for _ in 0..2 {
            let mut lits = PATTERN;
            let next = cursor.next_clause(text, &mut lits[..room]);
            let count = told(next, room);
            assert_eq!(lits[count..], PATTERN[count..]);
            match next {
                Next::Refused { refusal, count: 0 } if !(1..5).contains(&words[5]) => {
                    assert_eq!(refusal.number, 26);
                    unknown += 1;
                }
                _ if !(1..5).contains(&words[5]) => panic!("{words:?}: {next:?}"),
                Next::Ended => ended += 1,
                Next::Clause { .. } => clauses += 1,
                Next::Refused { .. } => refused += 1,
            }
        }
    }
    let kinds = [ended, clauses, refused, unknown];
    assert!(kinds.iter().all(|&count| count > 3_000), "{kinds:?}");
}

/// The word at any place of any text in any mode is within the text.
#[test]
fn any_place_has_a_word() {
    for text in TEXTS {
        for mode in 0..6 {
            for place in (0..60).chain([usize::MAX - 60, usize::MAX - 1, usize::MAX]) {
                let word = lent::stopped_at(mode, text, place);
                assert!(word.is_empty() || text[place..].starts_with(word) && mode < 4);
            }
        }
    }
    assert_eq!(lent::stopped_at(0, &[b'x'; 100], 30).len(), 60);
    assert_eq!(lent::stopped_at(0, &[b'x'; 100], 70).len(), 30);
}

/// The word goes by what ends lines in the parser's mode.
#[test]
fn the_word_at_a_return() {
    let at = |place| Refusal {
        number: 5,
        place,
        line: 1,
        column: 1,
    };
    for (mode, word) in [(Mode::Strict, &b"\r"[..]), (Mode::StrictCr, b"")] {
        let parser = cnf::Parser::new(b"1 0\r2 0\r", mode.into()).unwrap();
        assert_eq!(parser.as_formula().stopped_at(&at(7)), word);
        assert_eq!(parser.as_formula().stopped_at(&at(4)), b"2");
        assert_eq!(parser.as_formula().stopped_at(&at(99)), b"");
    }
}

/// The verdicts, and the literals of all value lines.
#[test]
fn logs() {
    let config = sat_solver_log::Config::default();
    for (text, verdict, satisfiable) in [
        (
            &b"s SATISFIABLE\nv 1\nv -2 0\n"[..],
            Verdict::Satisfiable,
            Some(true),
        ),
        (b"s UNSATISFIABLE\n", Verdict::Unsatisfiable, Some(false)),
        (b"s UNKNOWN\n", Verdict::Unknown, None),
        (b"c crashed\n", Verdict::Missing, None),
    ] {
        let log = parse_log(text, config).unwrap();
        assert_eq!((log.verdict, log.satisfiable()), (verdict, satisfiable));
        assert_eq!(
            log.assignment,
            if satisfiable == Some(true) {
                vec![1, -2]
            } else {
                vec![]
            }
        );
    }
    let odd = b"odd\rs UNKNOWN\r";
    assert_eq!(parse_log(odd, config).unwrap_err().number, 18);
    let lenient = config.ignore_unknown_lines(true);
    assert_eq!(parse_log(odd, lenient).unwrap().verdict, Verdict::Missing);
    let returns = lenient.cr_ends_lines(true);
    assert_eq!(parse_log(odd, returns).unwrap().verdict, Verdict::Unknown);
    let limited = parse_log(b"v 1 2 3 0\n", config.max_literals(2)).unwrap_err();
    assert_eq!((limited.number, limited.place), (16, 6));
}
