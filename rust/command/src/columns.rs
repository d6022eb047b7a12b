//! Words in columns.

/// Rows of words under headings.
pub struct Columns {
    pub headings: Vec<String>,
    pub rows: Vec<Vec<String>>,
}

impl Columns {
    /// Lines of text, each column as wide as it has to be and aligned at its right end.
    pub fn aligned(&self) -> String {
        let lines = || std::iter::once(&self.headings).chain(&self.rows);
        let widths: Vec<usize> = (0..self.headings.len())
            .map(|column| {
                let widths = lines().map(|line| line[column].chars().count());
                widths.max().unwrap_or(0)
            })
            .collect();
        let lines = lines().map(|line| {
            let words = line.iter().zip(&widths);
            let words = words.map(|(word, width)| format!("{word:>width$}"));
            words.collect::<Vec<_>>().join("   ") + "\n"
        });
        lines.collect()
    }
}
