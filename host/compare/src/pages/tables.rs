//! The sections of a page, each with its sentences and its tables.

/// A section: from a heading to the next one.
#[derive(Debug, Default)]
pub struct Section<'a> {
    pub heading: &'a str,
    /// Its sentences, as one line.
    pub prose: String,
    /// Its lines of code, without their indent.
    pub code: Vec<&'a str>,
    pub tables: Vec<Table<'a>>,
}

/// A table, line by line: the header, the rule below it, then the rows.
#[derive(Debug, Default)]
pub struct Table<'a> {
    pub lines: Vec<Row<'a>>,
}

/// The cells of a line.
pub type Row<'a> = Vec<&'a str>;

/// The sections of a text. What is indented by four blanks or fenced is code, and every
/// other line with a bar belongs to a table.
pub fn sections(text: &str) -> Vec<Section<'_>> {
    let mut sections = vec![Section::default()];
    let mut fenced = false;
    let mut in_table = false;
    for line in text.lines() {
        let fence = line.trim_start().starts_with("```");
        fenced ^= fence;
        let code = fence || fenced || line.starts_with("    ");
        let last = sections.last_mut().expect("there is always a section");
        if !code && line.starts_with('#') {
            sections.push(Section {
                heading: line.trim_matches(['#', ' ']),
                ..Section::default()
            });
        } else if !code && line.contains('|') {
            last.add(cells(line), in_table);
        } else if !code {
            last.prose.push_str(line.trim());
            last.prose.push(' ');
        } else {
            last.code.push(line.trim());
        }
        in_table = !code && line.contains('|');
    }
    sections
}

/// The cells between the bars of a line.
fn cells(line: &str) -> Row<'_> {
    let line = line.trim();
    let line = line.strip_prefix('|').unwrap_or(line);
    let line = line.strip_suffix('|').unwrap_or(line);
    line.split('|').map(str::trim).collect()
}

impl<'a> Section<'a> {
    /// Adds a line to the table that it follows, or begins a table with it.
    fn add(&mut self, line: Row<'a>, in_table: bool) {
        if !in_table {
            self.tables.push(Table::default());
        }
        if let Some(table) = self.tables.last_mut() {
            table.lines.push(line);
        }
    }
}

impl<'a> Table<'a> {
    /// The rows below a header, each with a cell for each column.
    pub fn rows(&self, header: &str) -> Result<&[Row<'a>], String> {
        let [columns, rule, rows @ ..] = &self.lines[..] else {
            return Err("it has no rows".to_string());
        };
        if columns.join(" | ") != header {
            return Err(format!("its columns should be {header:?}, not {columns:?}"));
        }
        if rule.len() != columns.len() || rule.iter().any(|cell| *cell != "---") {
            return Err("its second line is no rule".to_string());
        }
        match rows.iter().find(|row| row.len() != columns.len()) {
            Some(row) => Err(format!("a row has too many or too few cells: {row:?}")),
            None => Ok(rows),
        }
    }
}
