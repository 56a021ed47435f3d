//! A plain evaluator of tables and diagrams, written from the requirements alone. It uses nothing of the library.

mod attaching;
mod diagram;
mod printed;
mod profile;
mod reader;
mod ruling;
mod walk;

pub use attaching::attach;
pub use diagram::Diagram;
pub use reader::{Range, Table, HEADER, RECORD};
pub use ruling::lies_in;

/// How many fields a request has: subject, resource, action.
pub const FIELDS: usize = 3;

/// How many of them are not the subject.
pub const OTHERS: usize = FIELDS - 1;

/// A value for each field.
pub type Values = [u16; FIELDS];

/// Every member of a set is below this.
pub const MOST_SUBJECTS: u16 = 64;

/// Subjects that ask together, each once and rising, and a value for each other field.
#[derive(Clone, Debug)]
pub struct Joint {
    pub members: Vec<u16>,
    pub others: [u16; OTHERS],
}

impl Joint {
    pub fn new(members: impl IntoIterator<Item = u16>, others: [u16; OTHERS]) -> Joint {
        let mut members: Vec<u16> = members.into_iter().collect();
        members.sort_unstable();
        members.dedup();
        Joint { members, others }
    }

    /// A request of the set of its one subject; none where no set has that subject.
    pub fn only(values: Values) -> Option<Joint> {
        let [subject, others @ ..] = values;
        (subject < MOST_SUBJECTS).then(|| Joint::new([subject], others))
    }

    /// What a subject by itself asks.
    pub fn asked_by(&self, subject: u16) -> Values {
        let mut values = [subject; FIELDS];
        values[1..].copy_from_slice(&self.others);
        values
    }
}

/// The most places that a diagram uses.
pub const MOST_PLACES: usize = 32_768;

/// A refusal's number and place.
#[derive(Clone, Copy, Debug, PartialEq)]
pub struct Refused(pub u8, pub usize);

/// A decision by its number, and the cards.
#[derive(Clone, Debug, PartialEq)]
pub struct Ruled {
    pub decision: u8,
    pub cards: Vec<u16>,
}

/// What a call should hand back, and the numbers that should stand first in what it was lent; zeros follow.
#[derive(Clone, Debug, Default, PartialEq)]
pub struct Due {
    pub number: u8,
    pub place: usize,
    pub decision: u8,
    pub count: usize,
    pub subjects: usize,
    pub numbers: Vec<u16>,
}

impl Due {
    pub fn refused(Refused(number, place): Refused) -> Due {
        Due {
            number,
            place,
            ..Due::default()
        }
    }

    /// A reading: the number of nodes.
    pub fn read(table: &Result<Table, Refused>) -> Due {
        match table {
            Ok(table) => Due {
                count: table.nodes.len(),
                ..Due::default()
            },
            Err(refused) => Due::refused(*refused),
        }
    }

    /// A ruling on a set with a list of so many places.
    pub fn ruled(ruled: &Result<Ruled, Refused>, joint: &Joint, places: usize) -> Due {
        let mut due = Due::listed(ruled, places);
        if due.number == 0 {
            // "The answer also gives how many figures the party has."
            due.subjects = joint.members.len();
        }
        due
    }

    /// A ruling with a list of so many places: 10 where it is shorter than the cards.
    pub fn listed(ruled: &Result<Ruled, Refused>, places: usize) -> Due {
        match ruled {
            Ok(ruled) if places < ruled.cards.len() => Due::refused(Refused(10, 0)),
            Ok(ruled) => Due {
                decision: ruled.decision,
                count: ruled.cards.len(),
                numbers: ruled.cards.clone(),
                ..Due::default()
            },
            Err(refused) => Due::refused(*refused),
        }
    }

    /// A build in a room of so many places: 11 where the walk's diagram needs over 32,768 places or more than lent.
    pub fn built(walked: &Result<Vec<usize>, Refused>, room: usize) -> Due {
        match walked {
            Ok(walked) if walked.len() > MOST_PLACES || walked.len() > room => {
                Due::refused(Refused(11, 0))
            }
            Ok(walked) => Due {
                count: walked.len(),
                numbers: walked.iter().map(|&n| n as u16).collect(),
                ..Due::default()
            },
            Err(refused) => Due::refused(*refused),
        }
    }

    /// Attaching in a room of so many bytes: 11 where it is "too short, last of all".
    pub fn attached(attached: &Result<Vec<u8>, Refused>, room: usize) -> Due {
        match attached {
            Ok(bytes) if bytes.len() > room => Due::refused(Refused(11, 0)),
            // "The answer counts the bytes written"
            Ok(bytes) => Due {
                count: bytes.len(),
                numbers: bytes.iter().map(|&byte| byte.into()).collect(),
                ..Due::default()
            },
            Err(refused) => Due::refused(*refused),
        }
    }
}

/// What a table gives a set, or the first of refusals 1 to 8, 13 and 9.
pub fn rule(table: &Result<Table, Refused>, joint: &Joint) -> Result<Ruled, Refused> {
    table.as_ref().map_err(|&refused| refused)?.rule(joint)
}

/// What a table gives a set by the profile, where that accepts it, or the first of refusals 1 to 8, 14 to 16, 13 and 9.
pub fn rule_standard(standard: &Result<Table, Refused>, joint: &Joint) -> Result<Ruled, Refused> {
    let table = standard.as_ref().map_err(|&refused| refused)?;
    table.rule_standard(joint)
}

/// The diagram of a table, or the first of refusals 1 to 8.
pub fn walk(table: &Result<Table, Refused>) -> Result<Vec<usize>, Refused> {
    Ok(table.as_ref().map_err(|&refused| refused)?.walk())
}

/// What a diagram gives a request, or refusal 12 or 9.
pub fn look_up(diagram: &Result<Diagram, Refused>, values: Values) -> Result<Ruled, Refused> {
    diagram
        .as_ref()
        .map_err(|&refused| refused)?
        .look_up(values)
}

/// Every request within some maxima.
pub fn every_request(maxima: Values) -> impl Iterator<Item = Values> {
    let values = maxima.map(|most| usize::from(most) + 1);
    (0..values.iter().product()).map(move |turn: usize| {
        let mut left = turn;
        values.map(|count| {
            let value = left % count;
            left /= count;
            value as u16
        })
    })
}

/// Refusal 9: the first field whose value is over its maximum. The values are those of the last fields, or of all.
fn within(values: &[u16], maxima: Values) -> Result<(), Refused> {
    let first = FIELDS - values.len();
    match (first..FIELDS).find(|&field| values[field - first] > maxima[field]) {
        Some(field) => Err(Refused(9, field)),
        None => Ok(()),
    }
}
