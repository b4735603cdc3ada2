//! Ledgers made by the grammar of document 01, rule by rule, with rare forms that miss or refuse.

use crate::production::{Production, Taken};
use crate::random::Random;

/// How rarely a form is taken that misses or refuses.
const RARELY: usize = 60;

/// A ledger in the making.
struct Maker<'a> {
    random: &'a mut Random,
    out: Vec<u8>,
    taken: Taken,
}

/// A ledger of a few entries, and the productions that it took.
pub fn ledger(random: &mut Random) -> (Vec<u8>, Taken) {
    let mut maker = Maker::new(random);
    let entries = maker.random.below(4) + maker.random.below(3) + 1;
    for _ in 0..entries {
        maker.entry();
    }
    if maker.random.once_in(8) && maker.out.last() == Some(&b'\n') {
        maker.out.pop();
        maker.taken.add(Production::EndOfLedger);
    }
    (maker.out, maker.taken)
}

/// An expression as the ledgers have them.
pub fn expression(random: &mut Random) -> Vec<u8> {
    let mut maker = Maker::new(random);
    maker.expression(3);
    maker.out
}

impl Maker<'_> {
    fn new(random: &mut Random) -> Maker<'_> {
        Maker {
            random,
            out: Vec::new(),
            taken: Taken::default(),
        }
    }

    fn take(&mut self, production: Production) {
        self.taken.add(production);
    }

    fn put(&mut self, text: &str) {
        self.out.extend_from_slice(text.as_bytes());
    }

    fn pick(&mut self, texts: &[&'static str]) {
        let text = self.random.pick(texts);
        self.put(text);
    }

    fn rarely(&mut self) -> bool {
        self.random.once_in(RARELY)
    }

    // Rule 1.
    fn entry(&mut self) {
        match self.random.below(40) {
            0..=15 => self.transaction(),
            16..=25 => self.directive(),
            26..=28 => self.option(),
            29 => self.include(),
            30..=33 => self.tag_stack(),
            34 => self.not_an_entry(),
            35..=36 => {
                self.take(Production::Empty);
                self.line_feed();
            }
            37..=38 => {
                self.take(Production::Comment);
                self.comment();
                self.line_feed();
            }
            _ => {
                self.take(Production::Heading);
                self.pick(&[
                    "* Readings",
                    "note",
                    "  A:B 1 X",
                    "plugin \"x\"",
                    "2024",
                    "K: 1",
                ]);
                self.line_feed();
            }
        }
    }

    // Rule 2.
    fn line_end(&mut self) {
        if self.rarely() {
            self.take(Production::NoLineEnd);
            self.pick(&[" x", "x", " \"", "}", " 1 X"]);
        }
        if self.random.once_in(6) {
            self.take(Production::LineEndBlanks);
            self.pick(&[" ", "\t", "  "]);
        }
        if self.random.once_in(8) {
            self.take(Production::LineEndComment);
            self.comment();
        }
        self.line_feed();
    }

    fn line_feed(&mut self) {
        if self.random.once_in(10) {
            self.take(Production::CarriageReturn);
            self.put("\r\n");
        } else {
            self.take(Production::LineFeed);
            self.put("\n");
        }
    }

    fn comment(&mut self) {
        self.pick(&[
            ";",
            "; note",
            ";; 2024-01-01 *",
            "; \"",
            ";\tx ; y",
            "; 1/0 \\",
        ]);
    }

    fn blanks(&mut self) {
        if self.random.once_in(3) {
            self.pick(&[" ", "\t", "  ", " \t"]);
        }
    }

    fn gap(&mut self) {
        if self.random.once_in(200) {
            return;
        }
        self.pick(&[" ", " ", " ", " ", " ", "  ", "    ", "\t", " \t "]);
    }

    // Rule 3.
    fn date(&mut self) {
        if self.random.once_in(150) {
            let (production, texts): (_, &[&'static str]) = match self.random.below(3) {
                0 => (
                    Production::DateMonth,
                    &["2024-13-01", "2024-00-10", "1999-99-31"],
                ),
                1 => (
                    Production::DateDay,
                    &["2024-01-00", "2024-12-32", "2024-02-99"],
                ),
                _ => (
                    Production::DateShape,
                    &[
                        "1-1-1",
                        "2024-1-01",
                        "2024-01-1",
                        "20240-01-01",
                        "2024-001-01",
                        "024-01-01",
                    ],
                ),
            };
            self.take(production);
            return self.pick(texts);
        }
        self.take(Production::DateGood);
        self.pick(&["2024", "2023", "1999", "0000", "9999", "2025"]);
        self.put("-");
        self.pick(&["01", "02", "09", "10", "12"]);
        self.put("-");
        self.pick(&["01", "28", "30", "31", "10"]);
    }

    // Rule 4.
    fn dated(&mut self) {
        self.date();
        if self.rarely() {
            self.take(Production::DateNoGap);
            self.pick(&["", "0", "\n", "x"]);
        } else {
            self.gap();
        }
    }

    fn keyword(&mut self, word: &str) {
        self.put(word);
        if self.rarely() {
            self.take(Production::LongKeyword);
            self.pick(&["s ", "", "\n", ":"]);
        } else {
            self.gap();
        }
    }

    fn directive(&mut self) {
        self.dated();
        match self.random.below(16) {
            0..=2 => self.price(),
            3..=5 => self.balance(),
            6..=9 => self.open(),
            10 => {
                self.take(Production::Close);
                self.keyword("close");
                self.account();
            }
            11 => {
                self.take(Production::Pad);
                self.keyword("pad");
                self.account();
                self.gap();
                self.account();
            }
            12 => {
                self.take(Production::Commodity);
                self.keyword("commodity");
                self.currency();
            }
            13..=14 => {
                self.take(Production::Event);
                self.keyword("event");
                self.string();
                self.gap();
                self.string();
            }
            _ => {
                self.take(Production::OtherKeyword);
                self.pick(&[
                    "note A:B \"x\"",
                    "document",
                    "ope A:B",
                    "tx \"n\"",
                    "custom \"a\" 1 X",
                ]);
            }
        }
        self.line_end();
        self.metadata();
    }

    // Rule 5.
    fn string(&mut self) {
        self.put("\"");
        let pieces = self.random.below(5);
        if pieces == 0 {
            self.take(Production::StringEmpty);
        }
        for _ in 0..pieces {
            self.string_piece();
        }
        if self.random.once_in(100) {
            self.take(Production::OpenQuote);
        } else {
            self.put("\"");
        }
    }

    fn string_piece(&mut self) {
        match self.random.below(80) {
            0..=5 => {
                self.take(Production::EscapedQuote);
                self.put("q\\\"");
            }
            6..=11 => {
                self.take(Production::EscapedBackslash);
                self.put("b\\\\");
            }
            12..=16 => {
                self.take(Production::StringLineFeed);
                self.pick(&["\n", "\r\n", "\n  k: 1", "\n  A:B 1 X"]);
            }
            17 => {
                self.take(Production::StringDatedLine);
                self.pick(&["\n2024-01-01 * ", "\n2024-02-01 open A:B\n", "\noption "]);
            }
            18 => match self.random.below(3) {
                0 => {
                    self.take(Production::EscapesTouch);
                    self.pick(&["x\\\"\\\"", "x\\\\\\\\", "x\\\\\\\""]);
                }
                1 => {
                    self.take(Production::OtherBackslash);
                    self.pick(&["\\n", "x\\", "a\\ b"]);
                }
                _ => {
                    if self.out.last() == Some(&b'"') {
                        self.take(Production::EscapeFirst);
                    }
                    self.pick(&["\\\"", "\\\\"]);
                }
            },
            _ => {
                self.take(Production::StringOrdinary);
                self.pick(&[
                    "Jan",
                    " ",
                    "a b",
                    ";",
                    "#t",
                    "{}",
                    "1/0",
                    "\t",
                    "'",
                    "Meter 7",
                    "~!@",
                    "2024-01-01",
                ]);
            }
        }
    }

    // Rule 6.
    fn account(&mut self) {
        if self.random.once_in(150) {
            self.take(Production::AccountOne);
            return self.pick(&["Assets", "A:", "1", "A:b", "E::C"]);
        }
        if self.random.once_in(150) {
            self.take(Production::AccountSmall);
            return self.pick(&["cash:B", "-A:B", ":A:B", "\"A:B\""]);
        }
        let more = match self.random.below(4) {
            0 => self.random.below(3) + 2,
            _ => 1,
        };
        self.take(match more {
            1 => Production::AccountTwo,
            _ => Production::AccountMore,
        });
        self.account_part();
        for _ in 0..more {
            self.put(":");
            self.account_part();
        }
        if self.random.once_in(100) {
            self.take(Production::AccountColon);
            self.pick(&[":", ":x", "::A"]);
        }
    }

    fn account_part(&mut self) {
        if self.random.once_in(8) {
            self.take(Production::AccountDigit);
            self.pick(&["1", "2nd", "0-a", "2024"]);
        } else {
            self.pick(&[
                "A",
                "Assets",
                "E",
                "Meters",
                "Flat-1",
                "X9z",
                "B-",
                "Cellar-Main",
            ]);
        }
    }

    // Rule 7.
    fn currency(&mut self) {
        match self.random.below(160) {
            0 => {
                self.take(Production::CurrencyLast);
                self.pick(&["A-", "EUR.", "K_", "X'"]);
            }
            1 => {
                self.take(Production::CurrencySmall);
                self.pick(&["eur", "_A", "1X", ""]);
            }
            2..=40 => {
                self.take(Production::CurrencyOne);
                self.pick(&["A", "X", "E", "K"]);
            }
            41..=70 => {
                self.take(Production::CurrencyMarks);
                self.pick(&["A-B", "K.W_H", "X'1", "E--2", "A9", "N_.-'Z"]);
            }
            _ => {
                self.take(Production::CurrencyLong);
                self.pick(&["EUR", "KWH", "USD", "GAS", "EUREUREUR"]);
            }
        }
    }

    // Rule 8.
    fn expression(&mut self, depth: usize) {
        if self.random.once_in(12) {
            self.take(Production::Negation);
            self.put("-");
            self.blanks();
            self.group(depth);
            if self.random.once_in(6) {
                self.pick(&["*3", " + 1"]);
            }
            return;
        }
        self.product(depth);
        while self.random.once_in(7) {
            self.blanks();
            if self.random.once_in(2) {
                self.take(Production::Sum);
                self.put("+");
            } else {
                self.take(Production::Difference);
                self.put("-");
            }
            self.blanks();
            self.product(depth);
        }
    }

    fn product(&mut self, depth: usize) {
        self.atom(depth);
        while self.random.once_in(9) {
            self.blanks();
            if self.random.once_in(2) {
                self.take(Production::Product);
                self.put("*");
                self.blanks();
                self.atom(depth);
            } else {
                self.take(Production::Quotient);
                self.put("/");
                self.blanks();
                if self.random.once_in(30) {
                    self.atom(depth);
                } else {
                    self.pick(&["2", "4", "5", "-8", "0.5", "10", "1", "(2)", "-.25"]);
                }
            }
        }
    }

    fn atom(&mut self, depth: usize) {
        if depth > 0 && self.random.once_in(9) {
            self.group(depth);
        } else {
            self.literal();
        }
    }

    fn group(&mut self, depth: usize) {
        self.take(Production::Group);
        if self.random.once_in(100) {
            return self.deep_group();
        }
        self.put("(");
        self.blanks();
        self.expression(depth.saturating_sub(1));
        self.blanks();
        if self.rarely() {
            self.take(Production::OpenGroup);
        } else {
            self.put(")");
        }
    }

    fn deep_group(&mut self) {
        self.take(Production::DeepGroup);
        let depth = self.random.pick(&[2, 10, 31, 32, 33]);
        self.put(&"(".repeat(depth));
        self.literal();
        self.put(&")".repeat(depth));
    }

    // Rule 9.
    fn literal(&mut self) {
        if self.random.once_in(5) {
            self.take(Production::Minus);
            self.put("-");
            match self.random.below(30) {
                0 => {
                    self.take(Production::MinusTab);
                    self.pick(&["\t", " \t"]);
                }
                1..=4 => {
                    self.take(Production::MinusSpace);
                    self.pick(&[" ", "  "]);
                }
                _ => {}
            }
        }
        let (production, texts): (_, &[&'static str]) = match self.random.below(400) {
            0..=1 => (Production::TwoPoints, &["1.2.3", "1..", "1.,.", "..5"]),
            2..=3 => (Production::NoDigit, &[".", ",", ",.", ""]),
            4..=5 => (
                Production::Fine,
                &["0.0000001", "1.1234567", "3.00000001", ".9999999"],
            ),
            6..=7 => (
                Production::Large,
                &[
                    "999999999.999999",
                    "1000000000",
                    "999999999",
                    "999,999,999.999999",
                    "500000000.5",
                ],
            ),
            8..=9 => (
                Production::Long,
                &[
                    "00000000000000000000000000001",
                    "1.0000000000000000000000000000",
                    "12345678901234567890123456789",
                    "0.00000000000000000000000000000000000",
                ],
            ),
            10..=19 => (
                Production::LongZeros,
                &[
                    "1.0000000",
                    "12.500000000",
                    "0.0000000000",
                    "0000012",
                    "7.0000000000000000000000000",
                ],
            ),
            20..=39 => (Production::PointFirst, &[".5", ".000001", ",.5", ".0"]),
            40..=59 => (Production::PointLast, &["1.", "0.", "12,.", "300."]),
            60..=99 => (
                Production::Commas,
                &["1,204.5", "1,2,.5", ",1", "1,", "1,,2", "1.2,5", "12,000"],
            ),
            100..=199 => (
                Production::Fraction,
                &["12.5", "0.31", "1204.75", "0.000001", "3.141592", "99.99"],
            ),
            _ => (
                Production::Whole,
                &["1", "2", "5", "10", "12", "300", "0", "007", "1204"],
            ),
        };
        self.take(production);
        self.pick(texts);
    }

    // Rule 10.
    fn amount(&mut self) {
        self.expression(3);
        self.gap();
        self.currency();
    }

    fn price(&mut self) {
        self.take(Production::Price);
        self.keyword("price");
        self.currency();
        self.gap();
        self.amount();
    }

    fn balance(&mut self) {
        self.take(Production::Balance);
        self.keyword("balance");
        self.account();
        self.gap();
        self.expression(2);
        if self.random.once_in(3) {
            self.blanks();
            self.put("~");
            self.blanks();
            if self.rarely() {
                self.take(Production::ToleranceNone);
            } else {
                self.take(Production::Tolerance);
                self.expression(1);
            }
        }
        self.gap();
        self.currency();
    }

    fn open(&mut self) {
        self.take(Production::Open);
        self.keyword("open");
        self.account();
        if self.random.once_in(2) {
            self.take(Production::OpenCurrencies);
            self.gap();
            self.currency();
            while self.random.once_in(3) {
                self.blanks();
                self.put(",");
                self.blanks();
                self.currency();
            }
            if self.random.once_in(40) {
                self.take(Production::OpenComma);
                self.pick(&[",", " , ", ",x"]);
            }
        }
        if self.random.once_in(3) {
            self.take(Production::OpenBooking);
            self.gap();
            self.string();
        }
    }

    // Rule 11.
    fn transaction(&mut self) {
        self.dated();
        self.flag();
        if self.random.below(4) > 0 {
            self.gap();
            self.string();
            if self.random.once_in(3) {
                self.take(Production::Payee);
                self.gap();
                self.string();
            } else {
                self.take(Production::Narration);
            }
        }
        while self.random.once_in(3) {
            self.tag_or_link();
        }
        self.line_end();
        self.metadata();
        let postings = self.random.below(4);
        for _ in 0..postings {
            self.posting();
            if self.random.once_in(15) {
                self.take(Production::EmptyLine);
                self.blanks();
                self.line_feed();
            }
        }
    }

    fn flag(&mut self) {
        match self.random.below(100) {
            0..=14 => {
                self.take(Production::Txn);
                self.put("txn");
            }
            15..=24 => {
                self.take(Production::FlagOther);
                self.pick(&["P", "?", "#", "1", ";", "\"", "A", "^", "&", "\r\n", "-"]);
            }
            25 => {
                self.take(Production::FlagLineFeed);
                self.put("\n");
            }
            _ => {
                self.take(Production::Flag);
                self.pick(&["*", "!"]);
            }
        }
    }

    fn tag_or_link(&mut self) {
        if self.random.once_in(6) {
            self.take(Production::NoBlank);
        } else {
            self.put(" ");
        }
        if self.random.below(3) > 0 {
            self.take(Production::Tag);
            self.tag();
        } else {
            self.take(Production::Link);
            self.put("^");
            if self.random.once_in(3) {
                self.take(Production::LinkPoint);
                self.pick(&["a.b", ".", "inv-7.2024"]);
            } else {
                self.pick(&["inv-7", "l", "", "A_1"]);
            }
        }
    }

    // Rule 12.
    fn posting(&mut self) {
        if self.random.once_in(RARELY) {
            self.take(Production::PostingNot);
            self.pick(&["A:B 1 X", "  a:b 1 X", "  * * A:B", "  A:B 1 X Y", "  :"]);
            return self.line_feed();
        }
        self.take(Production::Posting);
        self.gap();
        if self.random.once_in(8) {
            self.take(Production::PostingFlag);
            self.pick(&["!", "*", "P", "#", "?", "2"]);
            self.gap();
        }
        self.account();
        if self.random.below(4) > 0 {
            self.take(Production::PostingAmount);
            self.gap();
            self.amount();
            if self.random.once_in(3) {
                self.gap();
                self.cost();
            }
            if self.random.once_in(4) {
                self.gap();
                let (production, mark) = match self.random.below(2) {
                    0 => (Production::PostingUnit, "@"),
                    _ => (Production::PostingTotal, "@@"),
                };
                self.take(production);
                self.put(mark);
                self.gap();
                self.amount();
            }
        }
        self.line_end();
        self.metadata();
    }

    // Rule 13.
    fn cost(&mut self) {
        self.put("{");
        self.blanks();
        match self.random.below(20) {
            0..=4 => {
                self.take(Production::CostAmountDate);
                self.amount();
                self.comma();
                self.date();
            }
            5..=9 => {
                self.take(Production::CostDateAmount);
                self.date();
                self.comma();
                self.amount();
            }
            10..=14 => {
                self.take(Production::CostAmount);
                self.amount();
            }
            15..=16 => {
                self.take(Production::CostDate);
                self.date();
            }
            17..=18 => self.take(Production::CostEmpty),
            _ => {
                self.take(Production::CostNot);
                self.pick(&["2 EUR,", "{2 EUR}", "2024-05-01 EUR", "2024-05-01, ", "#"]);
            }
        }
        self.blanks();
        self.put("}");
    }

    fn comma(&mut self) {
        self.blanks();
        self.put(",");
        self.blanks();
    }

    // Rule 14.
    fn tag(&mut self) {
        self.put("#");
        if self.random.once_in(15) {
            self.take(Production::TagEmpty);
        } else {
            self.pick(&["a", "b", "2024-01", "x_Y", "-"]);
        }
    }

    fn tag_stack(&mut self) {
        if self.random.below(5) < 3 {
            self.take(Production::Pushtag);
            self.put("pushtag");
        } else {
            self.take(Production::Poptag);
            self.put("poptag");
        }
        self.gap();
        self.tag();
        if self.random.once_in(10) {
            self.take(Production::TagRest);
            self.pick(&[" ", " ; c", ".x", " #b", "\"", " 2024-01-01 *"]);
        }
        self.line_feed();
    }

    // Rule 15.
    fn option(&mut self) {
        if self.random.once_in(10) {
            self.take(Production::OptionNot);
            self.pick(&[
                "optional",
                "option \"a\"",
                "option a b",
                "option\"a\" \"b\"",
            ]);
            return self.line_feed();
        }
        self.take(Production::Option);
        self.put("option");
        self.gap();
        self.string();
        self.gap();
        self.string();
        self.line_end();
    }

    fn include(&mut self) {
        if self.random.once_in(10) {
            self.take(Production::IncludeNot);
            self.pick(&[
                "includes",
                "include",
                "include x",
                "include \"a\" \"b\"",
                "includ \"a\"",
            ]);
            return self.line_feed();
        }
        self.take(Production::Include);
        self.put("include");
        self.gap();
        self.string();
        self.line_end();
    }

    // Rule 16.
    fn metadata(&mut self) {
        let mut keys = Vec::new();
        while self.random.once_in(5) {
            let key = self.random.pick(&["k", "k", "serial", "a-b_C9", "z"]);
            if keys.contains(&key) {
                self.take(Production::MetaAgain);
            }
            keys.push(key);
            self.metadata_line(key);
        }
    }

    fn metadata_line(&mut self, key: &str) {
        match self.random.below(40) {
            0 => {
                self.take(Production::MetaNot);
                self.pick(&[
                    "  K: 1",
                    "  k:1",
                    "  k 1",
                    "  k: x",
                    "k: 1",
                    "  k: 1 x",
                    "  k: 1/0 x",
                    "  k: ",
                ]);
                return self.line_feed();
            }
            1..=4 => {
                self.take(Production::MetaEmpty);
                self.blanks();
                if self.random.once_in(2) {
                    self.comment();
                }
                return self.line_feed();
            }
            _ => {}
        }
        self.gap();
        self.put(key);
        self.put(":");
        self.gap();
        match self.random.below(3) {
            0 => {
                self.take(Production::MetaString);
                self.string();
            }
            1 => {
                self.take(Production::MetaNumber);
                self.expression(2);
            }
            _ => {
                self.take(Production::MetaCurrency);
                self.currency();
            }
        }
        self.line_end();
    }

    // Lines that look like an entry and are none.
    fn not_an_entry(&mut self) {
        self.pick(&[
            "pushtag",
            "pushtag a",
            "poptag#a",
            "2024-01-01",
            "option",
            "2024-01-01 ",
            "2024-01-01 foo",
            "Option \"a\" \"b\"",
            " 2024-01-01 *",
        ]);
        self.line_feed();
    }
}

#[cfg(test)]
mod tests {
    use super::ledger;
    use crate::production::ALL;
    use crate::random::Random;

    #[test]
    fn every_production_is_taken() {
        let mut missing: Vec<_> = ALL.to_vec();
        for index in 0..200_000 {
            let (_, taken) = ledger(&mut Random::of(1, index));
            missing.retain(|(production, _)| !taken.has(*production));
        }
        assert_eq!(missing, []);
    }

    #[test]
    fn only_permitted_bytes_are_made() {
        for index in 0..2000 {
            let (bytes, _) = ledger(&mut Random::of(2, index));
            let good = |b: &u8| matches!(b, 9 | 10 | 13 | 32..=126);
            assert!(bytes.iter().all(good));
        }
    }
}
