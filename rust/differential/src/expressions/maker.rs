//! Expressions by rules 8 and 9 with what could part two engines: deep groups, parts that miss, blanks, signs, edges.

use crate::edges;
use crate::random::Random;

/// What stands in an operand's place and is none.
const MISSES: &[&str] = &[
    "", "x", "-", "+1", "--1", ".", ",", "1.2.3", "-\t5", "-(2)", "-(", "(", "()", "( )", ")",
    "KWH",
];

/// What stands in the place of a `)`.
const NOT_CLOSED: &[&str] = &["", "", "))", " ) )", ",)", "x)", "+)", "\n)"];

/// What stands in front of a group, where it may not always.
const SIGNS: &[&str] = &["-", "- ", "-\t", "--", "- -", "+", "1", "1 "];

/// What stands behind an expression.
const BEHIND: &[&str] = &[
    " KWH", " KWH", ")", " )", "+", " *", "*-(2)", "+ -(", "\n", "\r\n", ".", "(", " 5", "x",
    " - x", "\t;",
];

/// An expression in the making.
struct Maker<'a> {
    random: &'a mut Random,
    out: Vec<u8>,
    /// A part is not as the rules ask for once in so many; none is where this is 0.
    rarely: usize,
    /// Whether numbers and operators are such that values are seldom refused, however deep the groups are.
    easy: bool,
}

/// An expression, mostly; a part of it may miss.
pub fn expression(random: &mut Random) -> Vec<u8> {
    let mut maker = Maker {
        rarely: random.pick(&[0, 0, 0, 50, 20, 8]),
        easy: random.once_in(3),
        out: Vec::new(),
        random,
    };
    if maker.random.once_in(40) {
        maker.pick(&[" ", "\t", "  "]);
    }
    let levels = maker.levels();
    maker.sum(levels);
    if maker.random.once_in(5) {
        maker.pick(BEHIND);
    }
    maker.out
}

impl Maker<'_> {
    fn put(&mut self, text: &str) {
        self.out.extend_from_slice(text.as_bytes());
    }

    fn pick(&mut self, texts: &[&'static str]) {
        let text = self.random.pick(texts);
        self.put(text);
    }

    fn rarely(&mut self) -> bool {
        self.rarely > 0 && self.random.once_in(self.rarely)
    }

    fn blanks(&mut self) {
        if self.random.once_in(3) {
            self.pick(&[" ", " ", "\t", "  ", " \t"]);
        }
    }

    /// How deep groups open one in another: now and then about as deep as they may.
    fn levels(&mut self) -> usize {
        match self.random.below(16) {
            0..=3 => 0,
            4..=12 => self.random.below(4) + 1,
            13 => self.random.below(24) + 5,
            _ => self.random.below(9) + 28,
        }
    }

    /// Rule 8, with groups so deep in one of the operands.
    fn sum(&mut self, levels: usize) {
        if levels > 0 && self.random.once_in(6) {
            self.put("-");
            self.blanks();
            self.group(levels);
            if self.rarely() {
                self.pick(&["*3", " + 1", "-(1)"]);
            }
            return;
        }
        let more = match self.random.below(40) {
            0 => self.random.below(20),
            _ => self.random.pick(&[0, 0, 1, 1, 2, 3]),
        };
        let deep = self.random.below(more + 1);
        for place in 0..=more {
            if place > 0 {
                self.operator();
            }
            self.operand(if place == deep { levels } else { 0 });
        }
    }

    fn operator(&mut self) {
        self.blanks();
        match self.easy {
            true => self.pick(&["+", "-", "*"]),
            false => self.pick(&["+", "-", "*", "*", "/", "/"]),
        }
        self.blanks();
    }

    fn operand(&mut self, levels: usize) {
        if self.rarely() {
            self.pick(MISSES);
        } else if levels > 0 {
            if self.rarely() {
                self.pick(SIGNS);
            }
            self.group(levels);
        } else if self.random.once_in(10) {
            self.group(1);
        } else {
            self.literal();
        }
    }

    fn group(&mut self, levels: usize) {
        self.put("(");
        self.blanks();
        self.sum(levels - 1);
        self.blanks();
        if self.rarely() {
            self.pick(NOT_CLOSED);
        } else {
            self.put(")");
        }
    }

    /// Rule 9.
    fn literal(&mut self) {
        self.pick(&["", "", "", "", "", "", "", "-", "-", "- ", "-  "]);
        match self.random.below(100) {
            _ if self.easy => self.pick(&["1", "1", "1", "2", "0.5", "1.", "0"]),
            0..=43 => self.pick(&["0", "1", "2", "3", "4", "5", "7", "8", "0.5", ".25", "10"]),
            44..=63 => {
                let number = self.random.pick(&edges::NUMBERS);
                self.out.extend_from_slice(number);
            }
            64..=76 => self.near_the_limit(),
            77..=98 => self.any_number(),
            _ => self.long_number(),
        }
    }

    fn digits(&mut self, count: usize) {
        for _ in 0..count {
            self.pick(&["0", "1", "2", "3", "4", "5", "6", "7", "8", "9"]);
        }
    }

    fn near_the_limit(&mut self) {
        self.pick(&[
            "99999999",
            "99,999,999",
            "0099999999",
            "49999999",
            "100000000",
        ]);
        self.pick(&["9.99999", "9.99999", "9.", "8.5", "9,.9999"]);
        self.digits(1);
        self.pick(&["", "", "0", "5", ",", "00000"]);
    }

    fn any_number(&mut self) {
        let (whole, decimals) = (self.random.below(10), self.random.below(8) + 1);
        self.digits(whole);
        self.put(".");
        self.digits(decimals);
    }

    /// A number with many zeros, or with more digits than any value has.
    fn long_number(&mut self) {
        let count = self.random.below(60);
        match self.random.below(4) {
            0 => self.put(&"0".repeat(count)),
            1 => self.digits(count),
            2 => {
                self.put(".");
                self.digits(count);
            }
            _ => self.put(&format!("2.5{}", "0".repeat(count))),
        }
        self.digits(1);
    }
}
