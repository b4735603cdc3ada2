//! Made-up ledgers as hand corrections leave them: mixed blanks, comments, expressions, and all forms of an entry.

use super::dice::Dice;
use super::made;

/// One blank or more.
const GAPS: [&[u8]; 6] = [b" ", b" ", b"  ", b"\t", b" \t ", b"      "];

/// Blanks that may be missing.
const BLANKS: [&[u8]; 5] = [b"", b"", b" ", b"\t", b"   "];

/// Ends of lines, with blanks and comments before some.
const LINE_ENDS: [&[u8]; 8] = [
    b"\n",
    b"\n",
    b"\r\n",
    b"  \n",
    b" ; by hand\n",
    b";\n",
    b"\t; say \"x\"\r\n",
    b" ;; 1 EUR\n",
];

/// What may stand between the lines of an entry.
const BETWEEN_LINES: [&[u8]; 8] = [
    b"",
    b"",
    b"",
    b"",
    b"\n",
    b"  ; note\n",
    b"; not indented\r\n",
    b" \t\n\n",
];

/// Expressions: with groups, commas, trailing zeros, at the limits, rounded, and refused ones.
const EXPRESSIONS: [&[u8]; 24] = [
    b"0",
    b"-0",
    b"1",
    b"- 5",
    b"12.50",
    b"1,234.500",
    b"100.",
    b".5",
    b"007",
    b"100/3",
    b"-(2)",
    b"2--3",
    b"( 1 + 2 ) * 3",
    b"(1,204.5 - 1200)/2",
    b"0.000001",
    b"-0.000001",
    b"1.000000000",
    b"10",
    b"1000000",
    b"999,999,999.999999",
    b"-999999999.999999",
    b"0.1*0.1",
    b"123456.789012",
    b"0.10",
];

const CURRENCIES: [&[u8]; 6] = [b"EUR", b"KWH", b"A", b"E.R", b"A'B-C_D1", b"X9"];
const ACCOUNTS: [&[u8]; 6] = [
    b"A:B",
    b"Meters:Flat-02",
    b"1:2:3",
    b"Assets:Bank:Giro",
    b"A:B-",
    b"Z9:0",
];
const STRINGS: [&[u8]; 9] = [
    b"\"\"",
    b"\"a\"",
    b"\"Flat 2\"",
    b"\"two  blanks ; no comment\"",
    b"\"two\nlines\"",
    b"\"a\r\n; b\r\n\"",
    b"\"x\\\"y\"",
    b"\"x\\\\\"",
    b"\"#a ^b\"",
];
const TAGS: [&[u8]; 6] = [b"#", b"#a", b"#m-1_Z", b"^", b"^l.1", b"^x-y"];
const KEYS: [&[u8]; 4] = [b"k", b"serial", b"aB-9_", b"note"];
const DATES: [&[u8]; 5] = [
    b"2024-01-31",
    b"2024-02-30",
    b"0000-01-01",
    b"9999-12-31",
    b"0007-06-05",
];

/// Flags of transactions: the usual ones, others, and a line's end.
const FLAGS: [&[u8]; 11] = [
    b"*", b"!", b"txn", b"*", b"P", b"\n", b"\r\n", b"#", b";", b"\"", b" ",
];

/// Costs in all their forms, with `$` for an expression.
const COSTS: [&[u8]; 9] = [
    b"{}",
    b"{ \t}",
    b"{$ EUR}",
    b"{ $  EUR\t}",
    b"{2024-05-01}",
    b"{2024-05-01,$ EUR}",
    b"{ 2024-05-01 , $ EUR }",
    b"{$ EUR,2024-05-01}",
    b"{$ USD , 0001-12-31 }",
];

/// Entries on one line without date, and lines that no entry reads.
const UNDATED: [&[u8]; 18] = [
    b"option \"a\"  \"b\" ; c\n",
    b"option\t\"a\n\" \"\"\r\n",
    b"include  \"x.beancount\" ;y\n",
    b"pushtag  #a\n",
    b"pushtag #\t ; rest\n",
    b"poptag #a-b x\r\n",
    b"poptag #a.b\n",
    b"; comment\n",
    b"\n",
    b"\r\n",
    b"   \t\n",
    b"  ; indented\r\n",
    b"* Heading\n",
    b"2024-3-31 *\n",
    b"  A:B  1 kWh\n",
    b"optional\n",
    b"poptag #a\npushtag #b\n",
    b"; two  blanks\t\n",
];

/// Lines that no entry reads, with a quote.
const QUOTED: [&[u8]; 5] = [
    b"; say \"x\"\n",
    b"\"\n",
    b"option \"a\n",
    b"2024-3-31 * \"a\"\r\n",
    b"pushtag #a \"\n",
];

/// The text that is being made.
struct Page<'a> {
    dice: &'a mut Dice,
    text: Vec<u8>,
}

impl Page<'_> {
    fn add(&mut self, bytes: &[u8]) {
        self.text.extend(bytes);
    }

    fn any(&mut self, pieces: &[&[u8]]) {
        let piece = self.dice.pick(pieces);
        self.add(piece);
    }

    fn chance(&mut self, one_in: usize) -> bool {
        self.dice.below(one_in) == 0
    }

    /// A gap, and one of some pieces.
    fn part(&mut self, pieces: &[&[u8]]) {
        self.any(&GAPS);
        self.any(pieces);
    }

    /// Lines as other tests have them.
    fn others(&mut self) {
        let others = made::ledger(self.dice);
        self.add(&others);
    }

    fn amount(&mut self) {
        self.part(&EXPRESSIONS);
        self.part(&CURRENCIES);
    }

    /// The end of an entry's line, what stands between it and the next, and metadata.
    fn end(&mut self) {
        self.any(&LINE_ENDS);
        self.any(&BETWEEN_LINES);
        while self.chance(4) {
            self.part(&KEYS);
            self.add(b":");
            match self.dice.below(3) {
                0 => self.part(&STRINGS),
                1 => self.part(&EXPRESSIONS),
                _ => self.part(&CURRENCIES),
            }
            self.any(&LINE_ENDS);
            self.any(&BETWEEN_LINES);
        }
    }

    fn cost(&mut self) {
        let form = self.dice.pick(&COSTS);
        for byte in form {
            match byte {
                b'$' => self.any(&EXPRESSIONS),
                _ => self.add(&[*byte]),
            }
        }
    }

    fn posting(&mut self) {
        if self.chance(5) {
            self.part(&[b"!", b"*", b"P", b"#", b"0"]);
        }
        self.part(&ACCOUNTS);
        if !self.chance(4) {
            self.amount();
            if self.chance(3) {
                self.any(&GAPS);
                self.cost();
            }
            if self.chance(3) {
                self.part(&[b"@", b"@@"]);
                self.amount();
            }
        }
        self.end();
    }

    fn transaction(&mut self) {
        self.part(&FLAGS);
        for _ in 0..self.dice.below(3) {
            self.part(&STRINGS);
        }
        while self.chance(3) {
            self.any(&BLANKS);
            self.any(&TAGS);
        }
        self.end();
        for _ in 0..self.dice.below(4) {
            self.posting();
        }
    }

    fn open(&mut self) {
        self.part(&ACCOUNTS);
        if !self.chance(3) {
            self.part(&CURRENCIES);
            while self.chance(2) {
                self.any(&BLANKS);
                self.add(b",");
                self.any(&BLANKS);
                self.any(&CURRENCIES);
            }
        }
        if self.chance(3) {
            self.part(&STRINGS);
        }
        self.end();
    }

    fn balance(&mut self) {
        self.part(&ACCOUNTS);
        self.part(&EXPRESSIONS);
        if self.chance(2) {
            self.any(&BLANKS);
            self.add(b"~");
            self.any(&BLANKS);
            self.any(&EXPRESSIONS);
        }
        self.part(&CURRENCIES);
        self.end();
    }

    /// A keyword with so many parts behind it.
    fn plain(&mut self, keyword: &[u8], parts: &[&[&[u8]]]) {
        self.add(keyword);
        for part in parts {
            self.part(part);
        }
        self.end();
    }

    fn directive(&mut self) {
        self.any(&DATES);
        if self.dice.below(3) > 0 {
            return self.transaction();
        }
        self.any(&GAPS);
        match self.dice.below(7) {
            0 => self.plain(b"price", &[&CURRENCIES, &EXPRESSIONS, &CURRENCIES]),
            1 => {
                self.add(b"balance");
                self.balance();
            }
            2 => {
                self.add(b"open");
                self.open();
            }
            3 => self.plain(b"close", &[&ACCOUNTS]),
            4 => self.plain(b"pad", &[&ACCOUNTS, &ACCOUNTS]),
            5 => self.plain(b"commodity", &[&CURRENCIES]),
            _ => self.plain(b"event", &[&STRINGS, &STRINGS]),
        }
    }
}

/// A ledger of a few entries; now and then with damage, without its last line feed, or with a byte changed.
pub fn ledger(dice: &mut Dice) -> Vec<u8> {
    let mut page = Page {
        dice,
        text: Vec::new(),
    };
    for _ in 0..page.dice.below(6) {
        match page.dice.below(24) {
            0..=6 => page.any(&UNDATED),
            7 => page.any(&QUOTED),
            8 => page.others(),
            9 if page.chance(4) => page.any(&made::DAMAGE),
            _ => page.directive(),
        }
    }
    if page.chance(8) {
        page.any(&made::ENDS);
    }
    if page.chance(6) {
        page.text.pop();
    }
    if page.chance(8) && !page.text.is_empty() {
        let place = page.dice.below(page.text.len());
        page.text[place] = b" \t;\n\"0A:-{}~@,"[page.dice.below(14)];
    }
    page.text
}
