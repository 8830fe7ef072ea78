//! Terms of antt and their layout, which is that of `rt fmt`.

/// The widest line, in characters.
const WIDTH: usize = 100;

/// A term: a word or a few, a list, a record, or `some` of a term.
pub enum Term {
    Words(String),
    List(Vec<String>),
    Record(Vec<(&'static str, Term)>),
    Some(Box<Term>),
}

/// A number from 0 on.
pub fn natural(n: u32) -> String {
    n.to_string()
}

/// A whole number; `negsuc n` is −(n + 1).
pub fn integer(z: i128) -> String {
    match z {
        0.. => format!("pos {z}"),
        _ => format!("negsuc {}", -z - 1),
    }
}

/// A list of numbers from 0 on.
pub fn naturals(values: &[u32]) -> Term {
    Term::List(values.iter().copied().map(natural).collect())
}

/// A list of whole numbers.
pub fn integers(values: &[i128]) -> Term {
    Term::List(values.iter().copied().map(integer).collect())
}

/// A record of numbers.
pub fn numbers<const N: usize>(names: [&'static str; N], values: [u32; N]) -> Term {
    let field = |(name, value)| (name, Term::Words(natural(value)));
    Term::Record(names.into_iter().zip(values).map(field).collect())
}

/// The lines of a list in brackets, an item on each.
pub fn bracketed(items: impl Iterator<Item = String>) -> String {
    let lines: Vec<String> = items.chain(["[]".to_string()]).collect();
    format!("({})", lines.join("\n      ∷ "))
}

/// Whether a line has room for this text.
fn fits(text: &str) -> bool {
    text.chars().count() <= WIDTH
}

/// The lines of a list: as many items on each as it has room for, `∷` in front from the second on.
fn filled(items: &[String], pad: &str) -> String {
    let mut text = String::new();
    let mut line = String::new();
    for item in items.iter().map(String::as_str).chain(["[]"]) {
        let longer = match line.is_empty() {
            true => format!("{pad}{item}"),
            false => format!("{line} ∷ {item}"),
        };
        if fits(&format!("{longer};")) {
            line = longer;
        } else {
            text.push_str(&format!("{line}\n"));
            line = format!("{pad}∷ {item}");
        }
    }
    text + &line
}

impl Term {
    /// On one line.
    pub fn flat(&self) -> String {
        match self {
            Term::Words(words) => words.clone(),
            Term::List(items) => {
                items.iter().map(|item| format!("{item} ∷ ")).collect::<String>() + "[]"
            }
            Term::Record(fields) => {
                let field = |(name, term): &(&str, Term)| format!("{name} = {}", term.flat());
                format!("record {{ {} }}", fields.iter().map(field).collect::<Vec<_>>().join("; "))
            }
            Term::Some(term) => format!("some ({})", term.flat()),
        }
    }

    /// Over several lines, for a place after other words on a line that is indented by `pad`.
    pub fn spread(&self, pad: &str) -> String {
        match self {
            Term::Words(words) => words.clone(),
            Term::List(items) => format!("\n{}", filled(items, &format!("{pad}    "))),
            Term::Record(fields) => {
                let inner = format!("{pad}  ");
                let field = |(name, term): &(&str, Term)| term.field(name, &inner);
                format!("record {{\n{}{pad}}}", fields.iter().map(field).collect::<String>())
            }
            Term::Some(term) => format!("some ({})", term.spread(pad)),
        }
    }

    /// On one line where it has room beside `∷` on a line that is indented by `pad`, else over several.
    pub fn laid(&self, pad: &str) -> String {
        match self.flat() {
            line if fits(&format!("{pad}∷ {line}")) => line,
            _ => self.spread(pad),
        }
    }

    /// As a field of a record over several lines, on one line where that has room for it.
    fn field(&self, name: &str, pad: &str) -> String {
        let line = format!("{pad}{name} = {};", self.flat());
        if fits(&line) {
            return format!("{line}\n");
        }
        match self {
            Term::List(_) => format!("{pad}{name} ={};\n", self.spread(pad)),
            _ => format!("{pad}{name} = {};\n", self.spread(pad)),
        }
    }
}
