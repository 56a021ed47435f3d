//! The diagram that the requirements' walk gives, in as many places as it takes.

use std::collections::HashMap;

use super::{Table, Values};

struct Walk<'a> {
    table: &'a Table,
    numbers: Vec<usize>,
    /// The place of each entry that stands.
    places: HashMap<Vec<usize>, usize>,
}

impl Table {
    pub fn walk(&self) -> Vec<usize> {
        let mut walk = Walk {
            table: self,
            numbers: vec![0, 0],
            places: HashMap::new(),
        };
        walk.numbers.extend(self.maxima.map(usize::from));
        walk.numbers[1] = walk.field(&[]);
        walk.numbers[0] = walk.numbers.len();
        walk.numbers
    }
}

impl Walk<'_> {
    /// Enters all under some values, of the first fields; the place of what is entered last.
    fn field(&mut self, values: &[u16]) -> usize {
        if let Ok(values) = values.try_into() {
            return self.terminal(values);
        }
        let field = values.len();
        let mut edges: Vec<(u16, usize)> = Vec::new();
        for value in 0..=self.table.maxima[field] {
            let child = self.field(&[values, &[value]].concat());
            match edges.last_mut() {
                Some(edge) if edge.1 == child => edge.0 = value,
                _ => edges.push((value, child)),
            }
        }
        let mut entry = vec![field + 1, edges.len()];
        for (last, child) in edges {
            entry.extend([usize::from(last), child]);
        }
        self.enter(entry)
    }

    fn terminal(&mut self, values: Values) -> usize {
        let ruled = self
            .table
            .rule_one(values)
            .expect("values within the maxima");
        let mut entry = vec![0, ruled.decision.into(), ruled.cards.len()];
        entry.extend(ruled.cards.into_iter().map(usize::from));
        self.enter(entry)
    }

    fn enter(&mut self, entry: Vec<usize>) -> usize {
        if let Some(&place) = self.places.get(&entry) {
            return place;
        }
        let place = self.numbers.len();
        self.numbers.extend(&entry);
        self.places.insert(entry, place);
        place
    }
}
