//! Whether a diagram is sound, and looking up in it.

use std::collections::HashMap;

use super::{within, Refused, Ruled, Values, FIELDS, MOST_PLACES};

/// A label or a node, by the requirements' words.
enum Entry {
    Label(Ruled),
    /// The level, and for each edge its last value and its child's place.
    Node(usize, Vec<(u16, usize)>),
}

impl Entry {
    fn level(&self) -> usize {
        match self {
            Entry::Label(_) => 0,
            Entry::Node(level, _) => *level,
        }
    }

    fn size(&self) -> usize {
        match self {
            Entry::Label(ruled) => 3 + ruled.cards.len(),
            Entry::Node(_, edges) => 2 + 2 * edges.len(),
        }
    }
}

/// A sound diagram, taken apart.
pub struct Diagram {
    maxima: Values,
    root: usize,
    entries: HashMap<usize, Entry>,
}

impl Diagram {
    /// None where it is not sound.
    fn sound(numbers: &[u16]) -> Option<Diagram> {
        let (&[used, root], after) = numbers.split_first_chunk()?;
        let used = usize::from(used);
        let mut diagram = Diagram {
            maxima: *after.first_chunk()?,
            root: root.into(),
            entries: HashMap::new(),
        };
        if used > numbers.len() || used > MOST_PLACES || diagram.maxima.iter().any(|&m| m > 255) {
            return None;
        }
        let mut place = 2 + FIELDS;
        while place < used {
            let entry = diagram.entry(&numbers[place..used])?;
            let size = entry.size();
            diagram.entries.insert(place, entry);
            place += size;
        }
        (place == used && diagram.stands(diagram.root, 1)).then_some(diagram)
    }

    /// The sound entry that these numbers start with, after the entries that stand.
    fn entry(&self, numbers: &[u16]) -> Option<Entry> {
        let level = usize::from(numbers[0]);
        if level == 0 {
            let (decision, count) = (*numbers.get(1)?, *numbers.get(2)?);
            let cards = numbers.get(3..3 + usize::from(count))?.to_vec();
            let sound = decision <= 3 && count <= 127 && !cards.contains(&0);
            return sound.then_some(Entry::Label(Ruled {
                decision: decision as u8,
                cards,
            }));
        }
        let count = usize::from(*numbers.get(1)?);
        let edges = numbers.get(2..2 + 2 * count)?.chunks(2);
        let edges: Vec<(u16, usize)> = edges.map(|edge| (edge[0], edge[1].into())).collect();
        let below = if level == FIELDS { 0 } else { level + 1 };
        let sound = level <= FIELDS
            && edges.last().is_some_and(|e| e.0 == self.maxima[level - 1])
            && edges.windows(2).all(|pair| pair[0].0 < pair[1].0)
            && edges.iter().all(|&(_, child)| self.stands(child, below));
        sound.then_some(Entry::Node(level, edges))
    }

    /// Whether an entry of this level starts here.
    fn stands(&self, place: usize, level: usize) -> bool {
        self.entries
            .get(&place)
            .is_some_and(|entry| entry.level() == level)
    }

    /// Refusal 12 where it is not sound.
    pub fn check(numbers: &[u16]) -> Result<Diagram, Refused> {
        Diagram::sound(numbers).ok_or(Refused(12, 0))
    }

    /// What the diagram gives a request, or refusal 9.
    pub fn look_up(&self, values: Values) -> Result<Ruled, Refused> {
        within(&values, self.maxima)?;
        let mut place = self.root;
        loop {
            match &self.entries[&place] {
                Entry::Label(ruled) => return Ok(ruled.clone()),
                Entry::Node(level, edges) => {
                    let value = values[level - 1];
                    let edge = edges.iter().find(|&&(last, _)| value <= last);
                    place = edge.expect("the last edge ends at the maximum").1;
                }
            }
        }
    }
}
