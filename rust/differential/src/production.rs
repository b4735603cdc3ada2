//! The productions of document 01's grammar that the generator can take, each with its rule, and which of them a ledger
//! took.

/// Says each production once: its name here, and its rule and form in words.
macro_rules! productions {
    ($($name:ident = $words:literal,)+) => {
        /// A form of a rule. Those marked "not" are taken rarely: they miss, or refuse.
        #[derive(Clone, Copy, Debug, PartialEq, Eq)]
        pub enum Production {
            $(#[doc = $words] $name,)+
        }

        /// Every production with its words, in the order of the rules.
        pub const ALL: &[(Production, &str)] = &[$((Production::$name, $words)),+];
    };
}

productions! {
    Empty = "1 blank entry: empty line",
    Comment = "1 blank entry: comment",
    Heading = "1 blank entry: other text",
    LineFeed = "2 line end: LF",
    CarriageReturn = "2 line end: CRLF",
    LineEndBlanks = "2 line end: blanks",
    LineEndComment = "2 line end: comment",
    EndOfLedger = "2 line end: end of ledger",
    NoLineEnd = "2 not a line end",
    DateGood = "3 date",
    DateMonth = "3 not a date: month",
    DateDay = "3 not a date: day",
    DateShape = "3 not a date: number of digits",
    DateNoGap = "4 not a directive: no gap",
    Price = "4 price",
    Balance = "4 balance",
    Open = "4 open",
    Close = "4 close",
    Pad = "4 pad",
    Commodity = "4 commodity",
    Event = "4 event",
    OtherKeyword = "4 not a keyword",
    LongKeyword = "4 not a gap after the keyword",
    StringEmpty = "5 string: empty",
    StringOrdinary = "5 string: ordinary bytes",
    StringLineFeed = "5 string: line feed",
    StringDatedLine = "5 string: line that starts with a date",
    EscapedQuote = "5 string: escaped quote",
    EscapedBackslash = "5 string: escaped backslash",
    EscapeFirst = "5 not a string: escape at its start",
    EscapesTouch = "5 not a string: escapes touch",
    OtherBackslash = "5 not a string: other backslash",
    OpenQuote = "5 not a string: open quote",
    AccountTwo = "6 account: two parts",
    AccountMore = "6 account: more parts",
    AccountDigit = "6 account: part that starts with a digit",
    AccountColon = "6 account: colon behind it",
    AccountOne = "6 not an account: one part",
    AccountSmall = "6 not an account: small letter",
    CurrencyOne = "7 currency: one capital",
    CurrencyLong = "7 currency: more capitals",
    CurrencyMarks = "7 currency: digits and marks",
    CurrencyLast = "7 not a currency: last byte",
    CurrencySmall = "7 not a currency: small letter",
    Negation = "8 expression: negation",
    Sum = "8 expression: plus",
    Difference = "8 expression: minus",
    Product = "8 expression: times",
    Quotient = "8 expression: divided by",
    Group = "8 expression: group",
    DeepGroup = "8 expression: deep groups",
    OpenGroup = "8 not an expression: open group",
    Whole = "9 literal: digits",
    Fraction = "9 literal: with a point",
    PointFirst = "9 literal: point first",
    PointLast = "9 literal: point last",
    Commas = "9 literal: commas",
    Minus = "9 literal: minus",
    MinusSpace = "9 literal: minus and spaces",
    MinusTab = "9 not a literal: minus and a tab",
    TwoPoints = "9 not a literal: two points",
    NoDigit = "9 not a literal: no digit",
    Fine = "9 literal: over six places",
    LongZeros = "9 literal: zeros at its end",
    Large = "9 literal: large",
    Long = "9 literal: over 28 digits",
    Tolerance = "10 balance: tolerance",
    ToleranceNone = "10 not a tolerance: no expression",
    OpenCurrencies = "10 open: currencies",
    OpenComma = "10 open: comma given back",
    OpenBooking = "10 open: booking",
    Flag = "11 transaction: * or !",
    FlagOther = "11 transaction: other flag",
    FlagLineFeed = "11 transaction: line feed as flag",
    Txn = "11 transaction: txn",
    Narration = "11 transaction: narration",
    Payee = "11 transaction: payee and narration",
    Tag = "11 transaction: tag",
    Link = "11 transaction: link",
    NoBlank = "11 transaction: tag or link without a blank",
    EmptyLine = "11 transaction: empty line",
    Posting = "12 posting",
    PostingFlag = "12 posting: flag",
    PostingAmount = "12 posting: amount",
    PostingUnit = "12 posting: unit price",
    PostingTotal = "12 posting: total price",
    PostingNot = "12 not a posting",
    CostAmountDate = "13 cost: amount, date",
    CostDateAmount = "13 cost: date, amount",
    CostAmount = "13 cost: amount",
    CostDate = "13 cost: date",
    CostEmpty = "13 cost: nothing",
    CostNot = "13 not a cost",
    TagEmpty = "14 tag: empty",
    LinkPoint = "14 link: point",
    Pushtag = "14 pushtag",
    Poptag = "14 poptag",
    TagRest = "14 pushtag or poptag: rest of the line",
    Option = "15 option",
    OptionNot = "15 not an option",
    Include = "15 include",
    IncludeNot = "15 not an include",
    MetaString = "16 metadata: string",
    MetaNumber = "16 metadata: expression",
    MetaCurrency = "16 metadata: currency",
    MetaAgain = "16 metadata: a key again",
    MetaEmpty = "16 metadata: empty or comment line",
    MetaNot = "16 not metadata",
}

/// The productions that a ledger took.
#[derive(Clone, Copy, Debug, Default)]
pub struct Taken(u128);

impl Taken {
    /// Adds a production.
    pub fn add(&mut self, production: Production) {
        self.0 |= 1 << (production as u32);
    }

    /// Whether the ledger took it.
    pub fn has(self, production: Production) -> bool {
        self.0 >> (production as u32) & 1 == 1
    }
}

#[cfg(test)]
mod tests {
    use super::{Taken, ALL};

    #[test]
    fn each_production_has_its_own_bit() {
        assert!(ALL.len() <= 128);
        for (production, _) in ALL {
            let mut taken = Taken::default();
            taken.add(*production);
            let found = ALL.iter().filter(|(other, _)| taken.has(*other)).count();
            assert_eq!(found, 1);
        }
    }
}
