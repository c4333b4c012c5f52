//! Texts made by the grammar, mostly right, with wrong counts and numbers at the limits in some.

use crate::{frames::AMPLE, rng::Rng};

/// A text and the number of literals of its longest clause, or of the log, as far as it is known
/// here: rooms near it are telling.
pub struct Made {
    pub text: Vec<u8>,
    pub longest: usize,
}

/// Numbers at and around the limits of 31, 32, 63, 64 bits and beyond, and some that would pass for
/// a small one if a width were cut off.
pub const LIMITS: [&str; 22] = [
    "0",
    "1",
    "2147483646",
    "2147483647",
    "2147483648",
    "2147483649",
    "4294967295",
    "4294967296",
    "4294967297",
    "9223372036854775806",
    "9223372036854775807",
    "9223372036854775808",
    "9223372036854775809",
    "18446744073709551614",
    "18446744073709551615",
    "18446744073709551616",
    "18446744073709551617",
    "18446744073709551625",
    "99999999999999999999",
    "184467440737095516150",
    "999999999999999999999999999999",
    "340282366920938463463374607431768211457",
];

/// How a text is made.
struct Maker<'a> {
    rng: &'a mut Rng,
    text: Vec<u8>,
    /// Chances in a hundred of CR LF for a line end, of comments and blank lines where they may
    /// stand, and of a number at a limit.
    crlf: usize,
    lines: usize,
    limits: usize,
    /// Nothing is wrong on purpose.
    right: bool,
}

impl<'a> Maker<'a> {
    fn new(rng: &'a mut Rng) -> Self {
        let crlf = *rng.pick(&[0, 0, 0, 50, 100]);
        let lines = *rng.pick(&[0, 10, 40]);
        let limits = *rng.pick(&[0, 0, 0, 10, 25]);
        Self {
            rng,
            text: vec![],
            crlf,
            lines,
            limits,
            right: false,
        }
    }

    fn right(rng: &'a mut Rng) -> Self {
        Self {
            limits: 0,
            right: true,
            ..Self::new(rng)
        }
    }

    fn put(&mut self, bytes: impl AsRef<[u8]>) {
        self.text.extend(bytes.as_ref());
    }

    fn line_end(&mut self) {
        let end = if self.rng.percent(self.crlf) {
            "\r\n"
        } else {
            "\n"
        };
        self.put(end);
    }

    /// At least one blank.
    fn blanks(&mut self) {
        let blanks = *self
            .rng
            .pick(&[" ", " ", " ", " ", " ", " ", "  ", "\t", " \t", "\t  "]);
        self.put(blanks);
    }

    fn maybe_blanks(&mut self, times: usize) {
        if self.rng.percent(times) {
            self.blanks();
        }
    }

    /// Comments and blank lines, or nothing.
    fn maybe_lines(&mut self) {
        while self.rng.percent(self.lines) {
            self.maybe_blanks(20);
            if self.rng.percent(60) {
                self.comment();
            }
            self.line_end();
        }
    }

    fn comment(&mut self) {
        let words = [
            "c",
            "c",
            "c x",
            "c0",
            "c 1 0",
            "cc",
            "c\r",
            "c \r1",
            "c\t",
            "c p cnf 1 1",
            "c{1} 1 0",
            "c \u{e9}",
        ];
        let words = *self.rng.pick(&words);
        self.put(words);
    }

    /// A number, which may get leading zeros or be replaced by one at a limit.
    fn number(&mut self, usual: usize) -> String {
        let mut number = if self.rng.percent(self.limits) {
            let near = [usual.saturating_sub(1).to_string(), (usual + 1).to_string()];
            let which = self.rng.below(LIMITS.len() + near.len());
            near.get(which)
                .cloned()
                .unwrap_or_else(|| LIMITS[which - near.len()].to_string())
        } else {
            usual.to_string()
        };
        if self.rng.percent(4) {
            let zeros =
                *self
                    .rng
                    .pick(&["0", "00", "0000000000", "000000000000000000000000000000"]);
            number.insert_str(0, zeros);
        }
        number
    }

    /// A count of the header: right, unspecified, near, or at a limit.
    fn count(&mut self, right: usize, wrong: bool) {
        let number = if !wrong {
            self.number(right)
        } else {
            match self.rng.below(8) {
                0 | 1 => right.saturating_sub(1).to_string(),
                2 => (right + 1).to_string(),
                3 => "0".to_string(),
                _ => self.rng.pick(&LIMITS).to_string(),
            }
        };
        self.put(number);
    }

    fn literal(&mut self, variables: usize) {
        if self.rng.percent(40) {
            self.put("-");
        }
        let variable = 1 + self.rng.below(variables);
        let number = self.number(variable);
        self.put(number);
    }

    fn zero(&mut self) {
        let zero = *self
            .rng
            .pick(&["0", "0", "0", "0", "0", "0", "0", "-0", "00", "-000"]);
        self.put(zero);
    }

    /// Blanks, or a line end with what may come after it.
    fn between(&mut self) {
        if self.rng.percent(88) {
            self.blanks();
        } else {
            self.maybe_blanks(30);
            self.line_end();
            self.maybe_lines();
            self.maybe_blanks(20);
        }
    }
}

/// A text of clauses of format 0, 1 or 2.
fn clauses(format: u8, mut maker: Maker, most_clauses: usize) -> Made {
    let variables = 1 + maker.rng.below(5);
    let groups = 1 + maker.rng.below(3);
    let count = maker.rng.below(most_clauses + 1);
    let mut longest = 0;

    maker.maybe_blanks(10);
    maker.maybe_lines();
    if maker.rng.percent(65) {
        header(&mut maker, format, [variables, count, groups]);
        // Nothing but the end may follow on the same line.
        maker.maybe_blanks(8);
        if count > 0 || maker.rng.percent(80) {
            maker.line_end();
        }
    }
    for left in (0..count).rev() {
        maker.maybe_lines();
        maker.maybe_blanks(10);
        match format {
            1 => {
                let weight = maker.rng.below(9);
                let weight = maker.number(weight);
                maker.put(weight);
                maker.between();
            }
            2 => {
                let group = maker.rng.below(groups + 1);
                let group = maker.number(group);
                maker.put(format!("{{{group}}}"));
                if maker.rng.percent(70) {
                    maker.between();
                }
            }
            _ => {}
        }
        let length = maker.rng.below(5);
        longest = longest.max(length);
        for _ in 0..length {
            maker.literal(variables);
            maker.between();
        }
        maker.zero();
        maker.maybe_blanks(10);
        if left > 0 || maker.rng.percent(75) {
            maker.line_end();
        }
    }
    maker.maybe_lines();
    if maker.rng.percent(4) {
        maker.comment();
    }
    Made {
        text: maker.text,
        longest,
    }
}

fn header(maker: &mut Maker, format: u8, counts: [usize; 3]) {
    const WORDS: [&str; 3] = ["cnf", "wcnf", "gcnf"];
    let right = format as usize;
    let word = if maker.right || maker.rng.percent(98) {
        right
    } else {
        maker.rng.below(WORDS.len())
    };
    // In most texts all counts are right, in others one is not.
    let wrong = if !maker.right && maker.rng.percent(40) {
        maker.rng.below(3)
    } else {
        counts.len()
    };
    maker.put("p");
    maker.blanks();
    maker.put(WORDS[word]);
    let shown = if right == 0 { 2 } else { 3 };
    for (at, count) in counts.into_iter().take(shown).enumerate() {
        maker.blanks();
        maker.count(count, at == wrong);
    }
}

/// A solver's log.
fn log(mut maker: Maker, most_values: usize) -> Made {
    let variables = 1 + maker.rng.below(9);
    let values = maker.rng.below(most_values + 1);
    let solution = if maker.rng.percent(80) {
        maker.rng.below(values + 1)
    } else {
        values + 1
    };
    let mut literals = 0;

    for line in 0..=values {
        log_lines(&mut maker);
        if line == solution {
            solution_line(&mut maker);
            if maker.rng.percent(97) {
                maker.line_end();
            }
            log_lines(&mut maker);
        }
        if line < values {
            maker.put("v ");
            maker.maybe_blanks(15);
            for _ in 0..maker.rng.below(4) {
                maker.literal(variables);
                maker.blanks();
                literals += 1;
            }
            // The last one closes the assignment, and now and then an earlier one does.
            let last = line + 1 == values && (maker.right || maker.rng.percent(90));
            if last || !maker.right && maker.rng.percent(5) {
                maker.zero();
                maker.maybe_blanks(10);
            }
            if line + 1 < values || maker.rng.percent(80) {
                maker.line_end();
            }
        }
    }
    log_lines(&mut maker);
    Made {
        text: maker.text,
        longest: literals,
    }
}

fn solution_line(maker: &mut Maker) {
    let words = ["SATISFIABLE", "UNSATISFIABLE", "UNKNOWN"];
    let word = *maker.rng.pick(&words);
    maker.put("s ");
    maker.maybe_blanks(2);
    maker.put(word);
    maker.maybe_blanks(3);
}

/// Comments, and now and then a line that only the lenient mode takes.
fn log_lines(maker: &mut Maker) {
    while maker.rng.percent(maker.lines) {
        let known = ["c ", "c x", "c 1 0", "c v 1", "c \r", "c  c"];
        let unknown = [
            "",
            "c",
            "v",
            "s",
            "x",
            "c\t",
            "cx",
            " v 1",
            " ",
            "\r",
            "o 5",
            "v\t1",
            "s\tUNKNOWN",
            "s",
            "vv 1",
            "s UNKNOWN",
            "v 7 0",
        ];
        let line = if maker.right || maker.rng.percent(85) {
            *maker.rng.pick(&known)
        } else {
            *maker.rng.pick(&unknown)
        };
        maker.put(line);
        maker.line_end();
    }
}

/// A text of any format.
pub fn text(format: u8, rng: &mut Rng, most_clauses: usize) -> Made {
    match format {
        0..=2 => clauses(format, Maker::new(rng), most_clauses),
        _ => log(Maker::new(rng), 3),
    }
}

/// A text of any format with nothing wrong on purpose, of so many clauses or value lines at most.
pub fn right(format: u8, rng: &mut Rng, most: usize) -> Made {
    match format {
        0..=2 => clauses(format, Maker::right(rng), most),
        _ => log(Maker::right(rng), most),
    }
}

/// Pieces of texts in no order at all.
pub fn mixed(format: u8, rng: &mut Rng) -> Made {
    const CLAUSES: [&str; 24] = [
        "0",
        "1",
        "-1",
        "2",
        " ",
        " ",
        " ",
        " 0\n",
        " 0\n",
        "\n",
        "\n",
        "\r\n",
        "\r",
        "\t",
        "c",
        "c x\n",
        "-",
        "+",
        "x",
        "00",
        "2147483648",
        "p",
        "1 2 0",
        "\n\n",
    ];
    const OF_FORMAT: [&[&str]; 3] = [
        &["p cnf 2 1\n", "p cnf ", "p cnf 0 0", "cnf "],
        &[
            "p wcnf 2 1 9\n",
            "p wcnf ",
            "p wcnf 0 0 0",
            "5 ",
            "18446744073709551616 ",
            "7 1 0\n",
        ],
        &[
            "p gcnf 2 1 1\n",
            "p gcnf ",
            "{0}",
            "{1}",
            "{2} ",
            "{1} 1 0\n",
            "{",
            "}",
            "{01}",
            "{18446744073709551616}",
        ],
    ];
    const LOGS: [&str; 25] = [
        "v ",
        "v ",
        "v ",
        "s ",
        "c ",
        "c x\n",
        "SATISFIABLE",
        "UNSATISFIABLE",
        "UNKNOWN",
        "s UNKNOWN\n",
        "1",
        "-2",
        " 0",
        "0",
        " ",
        "\n",
        "\n",
        "\n",
        "\r\n",
        "\r",
        "\t",
        "x",
        "2147483648",
        "-2147483647 ",
        "v 1 2\n",
    ];
    let pieces = match OF_FORMAT.get(format as usize) {
        Some(own) => [&CLAUSES[..], own, own].concat(),
        None => LOGS.to_vec(),
    };
    let mut text = vec![];
    for _ in 0..1 + rng.below(12) {
        text.extend(rng.pick(&pieces).as_bytes());
    }
    Made { text, longest: 2 }
}

/// Room for the text: ample, or near its longest clause.
pub fn room(made: &Made, rng: &mut Rng) -> u32 {
    let longest = made.longest as u32;
    match rng.below(12) {
        0 => 0,
        1 => 1,
        2 => longest,
        3 | 4 => longest.saturating_sub(1),
        5 => longest + 1,
        6 => rng.below(7) as u32,
        7 => *rng.pick(&[AMPLE - 1, AMPLE + 1, u32::MAX]),
        _ => AMPLE,
    }
}
