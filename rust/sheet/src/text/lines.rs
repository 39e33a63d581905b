//! Which line of a text a record of its sheet stands on.

use crate::values::Section;
use std::collections::BTreeMap;

/// The lines of a text's headings, records and items.
#[derive(Debug, Clone, Default, PartialEq, Eq)]
pub struct Lines {
    noted: BTreeMap<(Section, Option<usize>, Option<usize>), usize>,
}

impl Lines {
    /// The line of an item, else of its record, else of its section's heading. None has what the
    /// text left out. An operand stands on its expression's line.
    pub fn line(
        &self,
        section: Section,
        record: Option<usize>,
        item: Option<usize>,
    ) -> Option<usize> {
        let places = [(record, item), (record, None), (None, None)];
        let mut found = places
            .iter()
            .filter_map(|(record, item)| self.noted.get(&(section, *record, *item)));
        found.next().copied()
    }

    pub(super) fn heading(&mut self, section: Section, line: usize) {
        self.noted.insert((section, None, None), line);
    }

    pub(super) fn record(&mut self, section: Section, record: usize, line: usize) {
        self.noted.insert((section, Some(record), None), line);
    }

    pub(super) fn item(&mut self, section: Section, record: usize, item: usize, line: usize) {
        self.noted.insert((section, Some(record), Some(item)), line);
    }
}
