//! What a table holds, in a few numbers.

use lumbrisse::{Date, Kind, Refusal, Row, Rows};

/// The entries of a table by kind, and their first and last date.
pub struct Summary {
    by_kind: [usize; 14],
    pub dates: Option<(Date, Date)>,
}

impl Summary {
    /// Counts the entries of a table.
    pub fn of(table: &[u8]) -> Summary {
        let mut summary = Summary {
            by_kind: [0; 14],
            dates: None,
        };
        for row in Rows::new(table).filter(|row| row.kind.is_entry()) {
            summary.add(&row);
        }
        summary
    }

    fn add(&mut self, entry: &Row) {
        let number = entry.kind.number() as usize;
        if let Some(count) = self.by_kind.get_mut(number) {
            *count = count.saturating_add(1);
        }
        if let Some(date) = entry.date() {
            self.dates = Some(match self.dates {
                None => (date, date),
                Some((first, last)) => (first.min(date), last.max(date)),
            });
        }
    }

    /// How many entries there are.
    pub fn entries(&self) -> usize {
        self.by_kind.iter().sum()
    }

    /// The kinds of entries that occur, and how often.
    pub fn counts(&self) -> impl Iterator<Item = (Kind, usize)> + '_ {
        let kinds = Kind::ALL.iter().filter(|kind| kind.is_entry());
        kinds.filter_map(|kind| match self.by_kind.get(kind.number() as usize) {
            Some(&count) if count > 0 => Some((*kind, count)),
            _ => None,
        })
    }
}

/// The refused blocks of a table, with why each was refused.
pub fn refused_blocks(table: &[u8]) -> impl Iterator<Item = (Row, Refusal)> + '_ {
    Rows::new(table).filter_map(|row| row.refusal().map(|refusal| (row, refusal)))
}
