//! Refusals in messages: the words of the proved library, with the number.

use jivaszte::Refusal;

pub fn message(refusal: Refusal) -> String {
    format!("{refusal} (refusal {})", refusal.number())
}

#[cfg(test)]
mod tests {
    use super::*;

    #[test]
    fn words_come_with_their_number() {
        assert_eq!(message(Refusal::ChangeWaits), "a change waits (refusal 6)");
        assert_eq!(message(Refusal::NothingAsked), "no asked change waits (refusal 21)");
    }

    /// docs/REFUSALS.md has a row for each number of document 01's list.
    #[test]
    fn words_stand_in_the_table() {
        let table = include_str!("../../docs/REFUSALS.md");
        for refusal in Refusal::ALL.iter().filter(|refusal| refusal.number() < 31) {
            let row = format!("| {} | {refusal} |", refusal.number());
            assert!(table.contains(&row), "docs/REFUSALS.md: {row}");
        }
    }
}
