//! Counts of what was reached as a table, and what had to be reached and was not.

/// The count of one thing.
#[derive(Debug, Clone, Copy)]
pub enum Cell {
    /// It must be reached.
    Must(u64),
    May(u64),
    /// It must not be.
    Never(u64),
    /// It cannot be.
    None,
}

impl Cell {
    /// A count that must be reached where it can be.
    pub fn where_possible(possible: bool, count: u64) -> Self {
        if possible {
            Self::Must(count)
        } else {
            Self::None
        }
    }
}

#[derive(Debug, Clone)]
pub struct Section {
    pub title: &'static str,
    pub columns: Vec<String>,
    pub rows: Vec<(String, Vec<Cell>)>,
}

pub fn texts<T: ToString>(names: impl IntoIterator<Item = T>) -> Vec<String> {
    names.into_iter().map(|name| name.to_string()).collect()
}

pub fn must(counts: &[u64]) -> Vec<Cell> {
    counts.iter().map(|&count| Cell::Must(count)).collect()
}

/// All sections as text.
pub fn table(sections: &[Section]) -> String {
    sections.iter().map(Section::text).collect::<Vec<_>>().join("\n")
}

/// What had to be reached and was not, and what was and must not be.
pub fn lacking(sections: &[Section]) -> Vec<String> {
    sections.iter().flat_map(Section::lacking).collect()
}

impl Section {
    pub fn row(&mut self, name: impl ToString, cells: Vec<Cell>) {
        self.rows.push((name.to_string(), cells));
    }

    fn text(&self) -> String {
        let columns: String = self.columns.iter().map(|name| format!(" {name:>9}")).collect();
        let mut text = format!("{:<46}{columns}", self.title).trim_end().to_string() + "\n";
        for (name, cells) in &self.rows {
            text.push_str(&format!("  {name:<44}"));
            for cell in cells {
                text.push_str(&match cell {
                    Cell::None | Cell::Never(0) => format!(" {:>9}", "-"),
                    Cell::Must(count) | Cell::May(count) | Cell::Never(count) => {
                        format!(" {count:>9}")
                    }
                });
            }
            text.push('\n');
        }
        text
    }

    fn lacking(&self) -> Vec<String> {
        let mut lacking = Vec::new();
        for (name, cells) in &self.rows {
            for (i, cell) in cells.iter().enumerate() {
                let place = format!("column {}", i + 1);
                let column = self.columns.get(i).unwrap_or(&place);
                match cell {
                    Cell::Must(0) => {
                        lacking.push(format!("never reached: {}: {name}: {column}", self.title));
                    }
                    Cell::Never(1..) => {
                        lacking
                            .push(format!("must not be reached: {}: {name}: {column}", self.title));
                    }
                    _ => {}
                }
            }
        }
        lacking
    }
}
