//! The kinds of findings: their table is a file of its own, which tests hold against the documents.

use std::fmt;
use std::rc::Rc;

use once_cell::sync::Lazy;

const TABLE: &str = include_str!("../../../h2audit/report/kinds.txt");

/// One of the two that talk.
#[derive(Debug, Clone, Copy, PartialEq, Eq, Hash, PartialOrd, Ord)]
pub enum Side {
    Client,
    Server,
}

impl Side {
    pub fn other(self) -> Side {
        match self {
            Side::Client => Side::Server,
            Side::Server => Side::Client,
        }
    }

    pub fn name(self) -> &'static str {
        match self {
            Side::Client => "client",
            Side::Server => "server",
        }
    }
}

impl fmt::Display for Side {
    fn fmt(&self, to: &mut fmt::Formatter<'_>) -> fmt::Result {
        to.write_str(self.name())
    }
}

/// Who broke the rule, of the two sides of a finding.
#[derive(Debug, Clone, Copy, PartialEq, Eq)]
pub enum Blame {
    Named,
    Other,
    Nobody,
}

/// A row of the table.
#[derive(Debug)]
pub(crate) struct Row {
    pub name: &'static str,
    /// Its place in the table, by which findings at one frame are in order.
    pub rank: usize,
    pub blame: Blame,
    pub sections: &'static str,
    pub sentence: &'static str,
}

/// The rows in the order of their names, the shorter first, since lengths compare faster. The first has no name: it is
/// a kind that a newer h2audit may have.
static KINDS: Lazy<Vec<Row>> = Lazy::new(|| {
    let mut rows: Vec<Row> = rows_of(TABLE).collect();
    rows.sort_by_key(|row| (row.name.len(), row.name));
    rows
});

fn rows_of(table: &'static str) -> impl Iterator<Item = Row> {
    table.lines().filter(|line| !line.starts_with('#')).enumerate().map(|(rank, line)| {
        let mut cells = line.splitn(4, '|').map(str::trim);
        let mut cell = || cells.next().unwrap_or_default();
        let (name, blame, sections, sentence) = (cell(), cell(), cell(), cell());
        let blame = match blame {
            "nobody" => Blame::Nobody,
            "the other side" => Blame::Other,
            _ => Blame::Named,
        };
        Row { name, rank, blame, sections, sentence }
    })
}

/// The kind of a finding.
#[derive(Debug, Clone)]
pub enum Kind {
    Known(&'static str),
    Unknown(Rc<str>),
}

impl Kind {
    pub fn of(name: &str) -> Kind {
        match row(name).name {
            "" => Kind::Unknown(name.into()),
            known => Kind::Known(known),
        }
    }

    pub fn name(&self) -> &str {
        match self {
            Kind::Known(name) => name,
            Kind::Unknown(name) => name,
        }
    }

    pub(crate) fn row(&self) -> &'static Row {
        row(self.name())
    }

    pub fn blame(&self) -> Blame {
        self.row().blame
    }

    /// What puts findings at one frame in order (docs/REPORT_FORMAT.md).
    pub fn rank(&self) -> usize {
        self.row().rank
    }

    pub fn is_credit(&self) -> bool {
        matches!(self.name(), "connection-credit" | "stream-credit")
    }

    pub fn is_stall_begin(&self) -> bool {
        matches!(self.name(), "connection-stall-begin" | "stream-stall-begin")
    }

    pub fn is_stall_end(&self) -> bool {
        matches!(self.name(), "connection-stall-end" | "stream-stall-end")
    }

    pub fn is_overrun(&self) -> bool {
        matches!(self.name(), "connection-overrun" | "stream-overrun")
    }
}

fn row(name: &str) -> &'static Row {
    let place = KINDS.binary_search_by(|row| (row.name.len(), row.name).cmp(&(name.len(), name))).unwrap_or(0);
    &KINDS[place]
}

/// Whether a kind of this name is a fault, which makes h2audit's status 1: any but stalls and credit.
pub fn is_fault(name: &str) -> bool {
    row(name).blame != Blame::Nobody
}

#[cfg(test)]
mod tests {
    use super::{is_fault, rows_of, Blame, TABLE};

    /// The table of the document, as its readers have it.
    const FORMAT: &str = include_str!("../../../docs/REPORT_FORMAT.md");

    #[test]
    fn the_table_says_what_the_document_says() {
        let documented: Vec<(String, String)> = FORMAT
            .lines()
            .filter_map(|line| {
                let cells: Vec<&str> = line.strip_prefix("| ")?.trim_end_matches(" |").split(" | ").collect();
                cells[0].parse::<u32>().ok()?;
                Some((cells[1].trim_matches('`').to_string(), cells.last()?.trim_matches('*').to_string()))
            })
            .collect();
        let ours: Vec<(String, String)> = rows_of(TABLE)
            .filter(|row| !row.name.is_empty())
            .map(|row| {
                let blame = match row.blame {
                    Blame::Named => "the named side",
                    Blame::Other => "the other side",
                    Blame::Nobody => "nobody",
                };
                (row.name.to_string(), blame.to_string())
            })
            .collect();
        assert!(ours.len() >= 27);
        assert_eq!(ours, documented);
    }

    #[test]
    fn faults_are_all_but_stalls_and_credit() {
        for row in rows_of(TABLE) {
            let is_none = ["-stall-begin", "-stall-end", "-credit"].iter().any(|end| row.name.ends_with(end));
            assert_eq!(is_fault(row.name), !is_none, "{}", row.name);
        }
        assert!(is_fault("of-a-later-version"));
    }
}
