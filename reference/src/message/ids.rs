//! The messages' ids, which a host lends with their numbers (order 6 of 02).

use std::collections::BTreeSet;

/// 02, order 6: "ids of 1 to 64 bytes".
pub const LONGEST_ID: usize = 64;

/// Bytes of an id in the lent table: its length, and 64 bytes.
pub const ID_ROW: usize = 1 + LONGEST_ID;

/// "Message ids become numbers by a table that the host lends": ids with their numbers, as
/// many as there are, or none.
#[derive(Clone, PartialEq, Eq, Debug, Default)]
pub struct Ids {
    pub rows: Vec<(Vec<u8>, u64)>,
}

impl Ids {
    /// "ids of 1 to 64 bytes, no id or number twice (else 2, after 8)"
    pub fn is_good(&self) -> bool {
        let of_length = |(id, _): &(Vec<u8>, u64)| (1..=LONGEST_ID).contains(&id.len());
        let ids: BTreeSet<&[u8]> = self.rows.iter().map(|(id, _)| id.as_slice()).collect();
        let numbers: BTreeSet<u64> = self.rows.iter().map(|(_, number)| *number).collect();
        self.rows.iter().all(of_length)
            && ids.len() == self.rows.len()
            && numbers.len() == self.rows.len()
    }

    pub fn number(&self, id: &[u8]) -> Option<u64> {
        self.rows.iter().find(|row| row.0 == id).map(|row| row.1)
    }

    pub fn id(&self, number: u64) -> Option<&[u8]> {
        self.rows.iter().find(|row| row.1 == number).map(|row| row.0.as_slice())
    }
}

/// The table as the library takes it: rows of a length and 64 bytes, shorter ids first and those
/// of one length by their bytes; a number for each row; and the rows by rising number. In
/// another order it is refused, as one with an id or number twice is.
#[derive(Clone, PartialEq, Eq, Debug, Default)]
pub struct IdTable {
    pub ids: Vec<u8>,
    pub numbers: Vec<u64>,
    pub order: Vec<u64>,
}

impl IdTable {
    /// The rows sorted; of an id that is too long the first 64 bytes.
    pub fn sorted(ids: &Ids) -> IdTable {
        let mut rows = ids.rows.clone();
        rows.sort_by(|(a, _), (b, _)| (a.len(), a).cmp(&(b.len(), b)));
        let numbers: Vec<u64> = rows.iter().map(|row| row.1).collect();
        let mut order: Vec<u64> = (0..rows.len() as u64).collect();
        order.sort_by_key(|&row| numbers[row as usize]);
        let mut table = IdTable { ids: Vec::new(), numbers, order };
        for (id, _) in &rows {
            let mut row = [0; ID_ROW];
            let kept = id.len().min(LONGEST_ID);
            row[0] = id.len() as u8;
            row[1..=kept].copy_from_slice(&id[..kept]);
            table.ids.extend(row);
        }
        table
    }

    /// The ids and their numbers, where the table is accepted.
    pub fn accepted(&self) -> Option<Ids> {
        if self.ids.len() != ID_ROW * self.numbers.len() || self.order.len() != self.numbers.len() {
            return None;
        }
        let id = |row: &[u8]| row.get(1..=usize::from(row[0])).unwrap_or_default().to_vec();
        let rows = self.ids.chunks(ID_ROW).map(id).zip(self.numbers.iter().copied()).collect();
        let ids = Ids { rows };
        let number = |&row: &u64| self.numbers.get(usize::try_from(row).ok()?);
        let by_number = self.order.iter().all(|row| number(row).is_some())
            && self.order.windows(2).all(|pair| number(&pair[0]) < number(&pair[1]));
        let key = |row: &(Vec<u8>, u64)| (row.0.len(), row.0.clone());
        let by_id = ids.rows.windows(2).all(|pair| key(&pair[0]) < key(&pair[1]));
        (ids.is_good() && by_number && by_id).then_some(ids)
    }

    /// The ids and their numbers; of a table that is not accepted some that are not either.
    pub fn ids(&self) -> Ids {
        self.accepted().unwrap_or_else(|| Ids { rows: vec![(Vec::new(), 0)] })
    }
}
