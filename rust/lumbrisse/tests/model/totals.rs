//! A second reckoning of monthly totals, from document 02 (M-108) alone, over the rows of plain reading: a map and
//! whole numbers of 128 bits.

use std::collections::BTreeMap;

use lumbrisse::{read_to_vec, Refusal};

const ROW_BYTES: usize = 32;

const TRANSACTION: u32 = 6;
const AMOUNT: u32 = 26;
const POSTING: u32 = 33;
const STATED: u32 = 50;
const UNSTATED: u32 = 51;

/// The largest value, in millionths.
const LARGEST: i128 = 999_999_999_999_999;

/// The buffers that the call is lent.
#[derive(Clone, Debug, PartialEq, Eq)]
pub struct Lent {
    pub items: Vec<u8>,
    pub work: Vec<u8>,
    pub spare: Vec<u8>,
}

pub fn field(row: &[u8], number: usize) -> u32 {
    u32::from_le_bytes(row[4 * number..][..4].try_into().unwrap())
}

/// What is listed once: its order is that of the items.
type Key<'a> = (u32, &'a [u8], &'a [u8]);

/// The spans of an item's first posting, the number of its postings, and their sum.
#[derive(Clone, Copy)]
pub struct Item {
    kind: u32,
    account: [u32; 2],
    currency: [u32; 2],
    pub postings: u32,
    pub sum: i128,
    /// The largest that the sum was on the way, whatever its sign.
    pub largest: i128,
}

impl Item {
    pub fn is_too_large(&self) -> bool {
        self.sum.abs() > LARGEST
    }

    /// Whether the sum was too large on the way, and is not in the end.
    pub fn was_too_large(&self) -> bool {
        self.largest > LARGEST && !self.is_too_large()
    }

    pub fn is_stated(&self) -> bool {
        self.kind == STATED
    }

    fn bytes(&self) -> Vec<u8> {
        let Item {
            account, currency, ..
        } = self;
        let fields = [
            self.kind,
            account[0],
            account[1],
            self.postings,
            currency[0],
            currency[1],
        ];
        let sum = i64::try_from(self.sum).unwrap();
        let front = fields.iter().flat_map(|field| field.to_le_bytes());
        front.chain(sum.to_le_bytes()).collect()
    }
}

/// The items of a month and the number of its postings; or why there are none, whatever room is lent.
pub type Reckoned = Result<(Vec<Item>, usize), Refusal>;

/// Reads a ledger and adds up a month of it.
pub fn reckoned(ledger: &[u8], year: usize, month: usize) -> Reckoned {
    let table = read_to_vec(ledger)?;
    if !(1..=12).contains(&month) {
        return Err(refusal(15, 0, 0));
    }
    let rows: Vec<&[u8]> = table.chunks_exact(ROW_BYTES).collect();
    let text = |span: [u32; 2]| &ledger[span[0] as usize..span[1] as usize];
    let mut items: BTreeMap<Key, Item> = BTreeMap::new();
    let (mut within, mut postings) = (false, 0);
    for (number, row) in rows.iter().enumerate() {
        let kind = field(row, 0);
        if kind < 20 {
            let date = field(row, 4) as usize;
            within = kind == TRANSACTION && date / 10_000 == year && date / 100 % 100 == month;
        }
        if !within || kind != POSTING {
            continue;
        }
        postings += 1;
        let behind = rows.get(number + 1).filter(|row| field(row, 0) == AMOUNT);
        let account = [field(row, 1), field(row, 2)];
        let (kind, currency, value) = match behind {
            None => (UNSTATED, [0, 0], 0),
            Some(amount) => {
                let value = i64::from_le_bytes(amount[24..].try_into().unwrap());
                (
                    STATED,
                    [field(amount, 4), field(amount, 5)],
                    i128::from(value),
                )
            }
        };
        let first = Item {
            kind,
            account,
            currency,
            postings: 0,
            sum: 0,
            largest: 0,
        };
        let item = items
            .entry((kind, text(account), text(currency)))
            .or_insert(first);
        item.postings += 1;
        item.sum += value;
        item.largest = item.largest.max(item.sum.abs());
    }
    Ok((items.into_values().collect(), postings))
}

/// What the call answers with these buffers, and what it leaves in them.
pub fn answered(reckoned: &Reckoned, lent: &mut Lent) -> Result<usize, Refusal> {
    let (items, postings) = reckoned.as_ref().map_err(|refusal| *refusal)?;
    let need = postings * ROW_BYTES;
    if lent.work.len() < need || lent.spare.len() < need {
        return Err(refusal(9, 1, need));
    }
    lent.work[..need].fill(0);
    lent.spare[..need].fill(0);
    if let Some(item) = items.iter().find(|item| item.is_too_large()) {
        return Err(refusal(6, item.account[0] as usize, 0));
    }
    let bytes: Vec<u8> = items.iter().flat_map(Item::bytes).collect();
    if lent.items.len() < bytes.len() {
        return Err(refusal(9, 0, bytes.len()));
    }
    lent.items[..bytes.len()].copy_from_slice(&bytes);
    Ok(items.len())
}

fn refusal(number: usize, place: usize, count: usize) -> Refusal {
    Refusal {
        number,
        place,
        count,
    }
}
