//! Tables of rows: a list of records, held by the definitions to be what they give for the same
//! inputs.

use super::term::Term;

/// A table: its name, what it is there for, its rows.
pub struct Table {
    pub name: &'static str,
    pub about: &'static str,
    pub rows: Vec<Term>,
}

impl Table {
    /// The definition of the table, a row on each line.
    fn definition(&self) -> String {
        let (name, about) = (self.name, self.about);
        let rows: Vec<String> = self.rows.iter().map(|row| row.laid("    ")).collect();
        let rows = rows.join("\n    ∷ ");
        format!("-- {about}\nabbrev pub {name} : List Row\n{name} =\n    {rows}\n    ∷ []\n\n")
    }

    /// The field of a record that says of the table what the definitions give.
    fn field(&self) -> String {
        let name = self.name;
        format!("  pub {name} : given {name} ≡ {name}\n")
    }
}

/// The definitions of the tables, and a record of this name with a field for each.
pub fn tables(record: &str, tables: &[Table]) -> String {
    let definitions: String = tables.iter().map(Table::definition).collect();
    let fields: String = tables.iter().map(Table::field).collect();
    format!("{definitions}pub record {record} : Type 0 where\n{fields}")
}
