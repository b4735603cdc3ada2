//! The kinds of rows.

use core::fmt;

/// Says each kind once: its name in Rust, its number in the table, its name in words, and what it is.
macro_rules! kinds {
    ($($(#[doc = $doc:literal])+ $kind:ident = $number:literal, $name:literal;)+) => {
        /// What a row stands for. Kinds 1 to 13 are entries, 20 to 37 details of the entry before them, 90 a refused
        /// block.
        ///
        /// ```
        /// use lumbrisse::Kind;
        ///
        /// assert_eq!(Kind::from(6), Kind::Transaction);
        /// assert_eq!(Kind::Transaction.number(), 6);
        /// assert_eq!(Kind::UnitPrice.to_string(), "unit price");
        /// assert_eq!(Kind::from(77), Kind::Other(77));
        /// ```
        #[derive(Clone, Copy, Debug, PartialEq, Eq, Hash)]
        pub enum Kind {
            $($(#[doc = $doc])+ $kind,)+
            /// A number that the reader writes into no row.
            Other(u32),
        }

        impl Kind {
            /// Every kind that the reader writes, in order of number.
            ///
            /// ```
            /// use lumbrisse::Kind;
            ///
            /// let entries = Kind::ALL.iter().filter(|kind| kind.is_entry());
            /// assert_eq!(entries.count(), 13);
            /// ```
            pub const ALL: &'static [Kind] = &[$(Kind::$kind),+];

            /// The kind's number in the row table.
            ///
            /// ```
            /// assert_eq!(lumbrisse::Kind::Posting.number(), 33);
            /// ```
            pub fn number(self) -> u32 {
                match self {
                    $(Kind::$kind => $number,)+
                    Kind::Other(number) => number,
                }
            }

            /// The kind's name in words.
            ///
            /// ```
            /// assert_eq!(lumbrisse::Kind::TotalPrice.name(), "total price");
            /// ```
            pub fn name(self) -> &'static str {
                match self {
                    $(Kind::$kind => $name,)+
                    Kind::Other(_) => "other",
                }
            }
        }

        impl From<u32> for Kind {
            fn from(number: u32) -> Kind {
                match number {
                    $($number => Kind::$kind,)+
                    _ => Kind::Other(number),
                }
            }
        }
    };
}

kinds! {
    /// A line that no other form reads: empty, a comment, or anything else.
    Blank = 1, "blank";
    /// `option` with two strings.
    Option = 2, "option";
    /// `include` with a string.
    Include = 3, "include";
    /// `pushtag` with a tag.
    Pushtag = 4, "pushtag";
    /// `poptag` with a tag.
    Poptag = 5, "poptag";
    /// A transaction, with its postings.
    Transaction = 6, "transaction";
    /// The price of a currency.
    Price = 7, "price";
    /// A balance that an account must have.
    Balance = 8, "balance";
    /// The opening of an account.
    Open = 9, "open";
    /// The closing of an account.
    Close = 10, "close";
    /// Padding of an account from another.
    Pad = 11, "pad";
    /// A commodity.
    Commodity = 12, "commodity";
    /// An event: two strings.
    Event = 13, "event";
    /// A transaction's flag; `txn` has none.
    Flag = 20, "flag";
    /// A transaction's payee, without quotes.
    Payee = 21, "payee";
    /// A transaction's narration, without quotes.
    Narration = 22, "narration";
    /// A tag, without its mark.
    Tag = 23, "tag";
    /// A link, without its mark.
    Link = 24, "link";
    /// The account of a directive.
    Account = 25, "account";
    /// An amount: its expression, with its value and the span of its currency.
    Amount = 26, "amount";
    /// A balance's tolerance: its expression, with its value.
    Tolerance = 27, "tolerance";
    /// A posting's cost, with its braces; `p` is its date or 0.
    Cost = 28, "cost";
    /// A price for each unit, as an amount.
    UnitPrice = 29, "unit price";
    /// A price for the whole, as an amount.
    TotalPrice = 30, "total price";
    /// A currency.
    Currency = 31, "currency";
    /// An open's booking method, without quotes.
    Booking = 32, "booking";
    /// A posting: its account; `p` is its flag's byte or 0.
    Posting = 33, "posting";
    /// A string of an event, option or include, without quotes.
    String = 34, "string";
    /// Metadata with a string: its key, with the value's span.
    MetadataString = 35, "metadata string";
    /// Metadata with a number: its key, with the value's span and the value.
    MetadataNumber = 36, "metadata number";
    /// Metadata with a currency: its key, with the value's span.
    MetadataCurrency = 37, "metadata currency";
    /// A block that recovering reading refused; `p` is the refusal's number, `q` its place.
    Refused = 90, "refused block";
}

impl Kind {
    /// Whether the row is an entry. The rows of entries cut an accepted ledger without gap.
    ///
    /// ```
    /// use lumbrisse::Kind;
    ///
    /// assert!(Kind::Blank.is_entry());
    /// assert!(!Kind::Posting.is_entry());
    /// assert!(!Kind::Refused.is_entry());
    /// ```
    pub fn is_entry(self) -> bool {
        (1..=13).contains(&self.number())
    }

    /// Whether the row is a detail of the entry before it.
    ///
    /// ```
    /// use lumbrisse::Kind;
    ///
    /// assert!(Kind::Posting.is_detail());
    /// assert!(!Kind::Blank.is_detail());
    /// ```
    pub fn is_detail(self) -> bool {
        (20..=37).contains(&self.number())
    }
}

impl fmt::Display for Kind {
    fn fmt(&self, f: &mut fmt::Formatter<'_>) -> fmt::Result {
        match self {
            Kind::Other(number) => write!(f, "kind {number}"),
            kind => f.pad(kind.name()),
        }
    }
}
