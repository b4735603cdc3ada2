//! What `--help` writes.

use super::args::Verb;

pub const VERSION: &str = concat!("lumbrisse ", env!("CARGO_PKG_VERSION"), "\n");

/// The help on everything, or on one command.
pub fn of(topic: Option<Verb>) -> &'static str {
    match topic {
        None => ALL,
        Some(Verb::Read) => READ,
        Some(Verb::Recover) => RECOVER,
        Some(Verb::Eval) => EVAL,
        Some(Verb::Packet) => PACKET,
        Some(Verb::Edit) => EDIT,
        Some(Verb::Totals) => TOTALS,
        Some(Verb::Format) => FORMAT,
    }
}

const ALL: &str = "\
lumbrisse: a proved reader of Beancount ledgers

Usage:
  lumbrisse read FILE           read a ledger: all of it, or the first refusal in it
  lumbrisse recover FILE        read on behind damage, and name every refused block
  lumbrisse eval EXPRESSION     the value of an expression, to the millionth
  lumbrisse packet FILE > OUT   write a ledger's rows as a packet, for a display on the building bus
  lumbrisse packet --read OUT   list what a packet holds
  lumbrisse edit FILE --lines 56-58 --with NEW
                                replace one block of a ledger, and say how it reads then
  lumbrisse totals FILE.. 2024-03
                                add up a month by account and currency
  lumbrisse format FILE         write a ledger afresh, in one layout; --check and --in-place take several
  lumbrisse help COMMAND        more on a command

A FILE, NEW or EXPRESSION of - is standard input, and so is the OUT of packet --read.

Options:
  --strict    read, recover: refuse lines that look like entries and would be taken for comments
  --rows      read, recover, packet --read, edit: the rows themselves, one to a line
  --json      the answer as JSON
  --csv       totals: lines of fields, for a spreadsheet
  --meter ACCOUNT
              totals: that account beside all others
  --exact     eval: refuse what would be rounded
  --recover   packet: the rows of recovering reading
  --output OUT, --in-place
              edit: where the new ledger goes
  --check     format: name the files that would change, and write nothing
  --in-place  format: replace each file that changes, and keep what it was as FILE.bak
  -h, --help  this text; after a command, more on it
  -V, --version

Start here:
  lumbrisse read examples/clean.beancount         a ledger that is whole
  lumbrisse read examples/building.beancount      the same with an open quote: refused
  lumbrisse recover examples/building.beancount   the damage named, the rest kept
  lumbrisse read --strict examples/strict/short-date.beancount
                                                  a line that would be lost in silence
  lumbrisse totals examples/totals.beancount 2024-03 --meter Meters:Reference
                                                  a month beside the reference meter
  lumbrisse format examples/ragged.beancount      a ragged ledger in one layout

Exit status:
  0  accepted
  1  refused, or a block of it refused; or format --check has named a file
  2  wrong words, a file that cannot be read or written, or a packet that would go to a terminal
";

const READ: &str = "\
lumbrisse read [--strict] [--rows | --json] FILE

Plain reading. The ledger is accepted as a whole, or refused with a number from 1 to 8 and a place.

Accepted, it says how many entries of each kind there are, and the first and last date.
Refused, it says on standard error what is missing, with the line and a mark under the place:

  FILE:12:1: refusal 4: a required part of this entry is missing
     12 | 2024-03-31 * \"open quote
        | ^
        = this line has an odd number of quotes: one may have been left open

Refusal 4 stands at the start of its entry. The usual causes: a quote that is not closed, an account
of one part, a line with something left over.

Plain reading takes a line that no entry reads for a comment. With --strict it is refused, if it looks
like an entry or a posting; that comes after all other refusals:
  refusal 16  a line that no entry reads, and that starts with a digit, with blanks and then anything
              but a comment, or with the word option: a date of another form, a mistyped word, a
              posting with a currency in small letters
  refusal 17  a transaction whose flag is neither * nor !
What --strict accepts has the same rows. Without it, standard error says how many such lines and flags
there are, and where the first is; the exit status is 0 all the same.

Where a quote was left open and a later one closed it, postings or whole entries are part of a string, and
the ledger is accepted. So standard error names the first line within a string that starts like an entry,
with a digit, or like a posting, with blanks and an account; with --strict too.

With --rows, a line for each row: kind start end line p q value
  1 to 13   an entry; p is its date, q the number of detail rows after it
  20 to 37  a detail: flag, payee, narration, tag, account, amount, posting ..
Places count bytes from 0, lines from 1; a value counts millionths. Products and quotients are rounded
to the nearest one, as by eval.

With --json, one object: \"accepted\", then \"rows\" or \"refusal\".
";

const RECOVER: &str = "\
lumbrisse recover [--strict] [--rows | --json] FILE

Recovering reading. The ledger is cut before each line that starts with a digit or small letter, and
each block is read by itself. So one open quote costs its own block and cannot fold the next reading
into a narration.

Each refused block is named by its lines, with what is wrong in it; then come the number of entries
that were kept, by kind, and the first and last date of these.

With --strict each block is read as `lumbrisse read --strict` reads a ledger, so a block with a line that
would be lost is refused. Without it, standard error says how many such lines were kept as comments.

A quote that is left open and closed within the same block can still swallow its postings. So standard
error names the first line that starts like a posting within a string of a kept block, with --strict too.

With --rows, the rows of all kept blocks, and for each refused block a row of kind 90: its span and
line, p the refusal's number, q the refusal's place.

With --json, one object: \"kept\", \"refused\" and \"rows\".

The exit status is 1 where any block was refused.
";

const EVAL: &str = "\
lumbrisse eval [--exact] [--json] EXPRESSION

One expression, as a ledger has it: + - * / and groups, with points and commas in numbers. Values are
whole millionths, up to 999,999,999.999999.

Each product and each quotient is rounded to the nearest millionth, a tie to the even one. Where that
changed anything, the exact value stands behind the rounded one. With --exact nothing is rounded: what
is not a whole number of millionths is refused. A number that is written finer is refused either way.

  lumbrisse eval '(1,204.5 - 1200)/2'     2.25
  lumbrisse eval 100/3                    33.333333 (rounded from 33.333333333..)
  lumbrisse eval --exact 100/3            refusal 7: not a whole number of millionths
  lumbrisse eval '-(2)*3'                 -2: a negated group ends its expression

Where the expression ends before the text does, what was not read is said on standard error.
An expression that starts with -- goes after a word -- of its own.

With --json, one object: \"value\", \"millionths\", \"rounded\" (true or false) and \"stop\", the place after
its last byte.
";

const PACKET: &str = "\
lumbrisse packet [--recover] FILE > OUT
lumbrisse packet --read [--rows | --json] OUT

Without --read: reads a ledger and writes its rows to standard output as a packet, which the box sends
to a display over the building bus. A packet is a list of fields: a tag of one byte, a length of two
(the highest first), the content. Tag 1 is an entry row, 2 a detail row, 3 the text of the detail row
before it; a row has 32 bytes. A ledger that plain reading refuses has no packet, and neither has one
with a text over 65,535 bytes (refusal 18): nothing is written then.

With --recover, the rows of recovering reading: a refused block is a detail row of kind 90, with the
block as its text. How many there are is said on standard error, and the exit status is then 1.

With --read: lists a packet as a display reads it, a line for each row: its place in the packet, its
kind, span and line in the ledger, its text, and its date or value. Long texts are cut. Where the packet
is damaged the rows before that are listed, and standard error says what is wrong at which byte:
  refusal 19  a field is cut short, or the packet ends where a text is due
  refusal 20  a field is not the one that is due: its tag, its length or its order is wrong

With --read --rows, the rows as `lumbrisse read --rows` lists them: these two print the same.

  lumbrisse packet FILE | lumbrisse packet --read --rows -
  lumbrisse read --rows FILE

With --read --json, one object: \"accepted\", \"refusal\" where there is one, \"bytes\" and \"rows\", each
with its \"place\" in the packet and all of its \"text\".
";

const EDIT: &str = "\
lumbrisse edit FILE --lines 56-58 --with NEW [--output OUT | --in-place] [--rows | --json]

Replaces lines of a ledger by what the file NEW holds (- is standard input), and prints what
`lumbrisse recover` says of the new ledger. Its rows are those of the old one, moved, and the new lines'.

The lines must be exactly one block: from a line that starts with a digit or small letter (or from the
file's first line) up to the next such line, or to the file's end. `lumbrisse recover` names the lines
of each refused block. --lines 56 is one line. Where the lines are no block, the block's are said:

  FILE: refusal 10: lines 57-58 are not a block: the block there is lines 56-58

NEW may hold any number of blocks. Without a byte in it the block is removed. Else it must start with a
digit or small letter, unless the block is the file's first, and end in a line feed, unless it is the
last. Lines that end in CR LF do end in a line feed; NEW is taken as it is.

The new ledger is written by a name of its own and then renamed, so that no half of one is ever seen:
  --output OUT  to the file OUT, which must not be there yet
  --in-place    to FILE itself. What it was before is kept as FILE.bak; where that is there already, as
                FILE.bak2, FILE.bak3 and so on: no older one is lost. A FILE that another program has
                changed meanwhile is left.
With neither nothing is written: what would be said of the new ledger is printed, and no more. What was
written is said on standard error.

The exit status is 0 where nothing in the new ledger is refused, 1 where a block of it is, which is
written all the same, and 1 where the edit itself is refused: then nothing is written. It is 2 where a
file cannot be read or written.

With --rows and --json as `lumbrisse recover`; a refused edit is an object with \"refusal\" and \"why\".
";

const TOTALS: &str = "\
lumbrisse totals FILE.. 2024-03 [--meter ACCOUNT] [--csv | --json]

Adds up the postings of a month: for each account and currency the exact sum of their amounts and how
many there are. Each FILE is one building's ledger, read as `lumbrisse read` reads it. The month is the last
word, or --month 2024-03 names it: then every other word is a file. A file must not be given twice.

What counts is the amount that a posting of a transaction of that month states. Costs, prices, balances
and all other entries do not. A posting that states no amount is in no sum: the account is named below,
with how often. Products and quotients are rounded as by eval; sums are exact, in any order.

Below the accounts stand, for each currency,
  by first part  the accounts that start alike: Meters, Tenants .. (left out where no two do)
  all accounts   those with sums above zero, those below, and all together. Where each transaction
                 balances the last is 0: see the first two
With several files the same follows for all of them together. A file that is refused is named as by
`lumbrisse read` on standard error, and is in none of these; the others are listed all the same.

--meter ACCOUNT sets an account beside all others, for each currency that it has: its sum, the sum of all
other accounts in that currency, and the difference: by how much its sum is the larger, signs aside. That
is what the reference meter counted more than the flats did. Where it is below 0 the flats counted more.
Signs are said too: a meter that is booked against the flats has the opposite sign. So are postings to
the account that state no amount: they may be all of a difference.

With --csv, a heading and a line for each account and currency: file,month,account,currency,sum,postings
(for postings that state no amount, currency and sum are empty); with --meter instead
file,month,account,currency,sum,others,difference,signs,unstated (signs: opposite, same, or empty where
one is 0; unstated: how many postings to the account state no amount).

With --json, one object: \"month\", \"files\" and \"all_files\". A file has \"totals\", \"unstated\",
\"by_first_part\", \"all_accounts\" and, where asked for, \"meter\"; or else \"refusal\" or \"trouble\". Sums are
strings with all their digits.

Lines that look like entries and are taken for comments are said on standard error, as by read.

The exit status is 0 where all files were added up, also where the month has no postings or the meter
differs; 1 where one was refused; 2 where one cannot be read, or the words are wrong. The largest counts.

  lumbrisse totals examples/totals.beancount 2024-03 --meter Meters:Reference
";

const FORMAT: &str = "\
lumbrisse format FILE
lumbrisse format --check FILE..
lumbrisse format --in-place FILE..

Writes a ledger afresh, in one layout: parts a space apart, postings and metadata behind two spaces, each
cost, price and list of currencies in one form. What it says stays the same: reading the new text gives
the same entries, dates, values, names and strings in the same order, and formatting it again changes
nothing. That is proved, for every file that is not left alone (below).

Without an option the new text goes to standard output, and nothing else does.
  --check     writes nothing: prints the names of the files that would change, one to a line
  --in-place  replaces each file that changes, by a new file that is renamed, so that no half of one is
              ever seen. What it was before is kept as FILE.bak (or .bak2 and so on), as by edit. Other
              files are not touched.

What changes beside blanks:
  comments and empty lines inside an entry are DROPPED: behind its parts, between its lines, and below it.
    Those below a dated entry belong to it up to the next line that is neither empty nor a comment, also
    where they are not indented. How many comments go is said on standard error
  expressions become their values: 1,200.50/2 is written 600.25, and 100/3 as 33.333333; numbers have no
    commas, and no zeros at the end
  a cost has its amount first: {2024-05-01,3 EUR} is written {3 EUR, 2024-05-01}
  lines of entries that end in CR LF end in a line feed, and so does a last one without

What stays byte by byte: strings, also over several lines; lines that no entry reads, which are comments
and empty lines above the first dated entry, below option, include, pushtag and poptag, and below one
another, headings, and whatever else; and what stands behind the tag of a pushtag or poptag.
What must not be lost can be metadata: note: \"read twice\"

A file is left alone, named on standard error, and the exit status is 1, where
  it is refused, as `lumbrisse read` refuses it
  a line that no entry reads holds a quote: a comment above the first entry, plugin \"..\", an entry with a
    date of another form. Nothing is promised of reading such a file again
  it would be longer than 16,777,216 bytes, and not be read again

The exit status is 0 where all went well; 1 where a file is left alone, or --check has named one; 2 where
a file cannot be read or written, or the words are wrong. The largest counts.

  lumbrisse format FILE | diff FILE -       what would change, and nothing written
";
