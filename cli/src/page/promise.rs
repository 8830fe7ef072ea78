//! What is promised, in plain words, each with the theorem that carries it and the files that have it.

/// A sentence; the theorem's name; the file of the proof; what it states; the file of the statement.
pub struct Promise {
    pub words: &'static str,
    pub theorem: &'static str,
    pub proof: &'static str,
    pub states: &'static str,
    pub statement: &'static str,
}

pub const PROMISES: [Promise; 10] = [
    Promise {
        words: "However a string is played, with whatever values and in whatever order: after a change \
                of pitch no sample is further from that of a filter which had been there since the \
                beginning than 3 × 2^(23 − k), and than 2 from k = 24 on. Here k is the advance and the \
                samples since the change, together, divided by the order of the new filter, whatever it was \
                before; of a change that was asked for and committed, the samples between the two take the \
                place of the advance.",
        theorem: "click",
        proof: "crates/rule/proofs/Click.antt",
        states: "Click",
        statement: "crates/rule/specs/Click.antt",
    },
    Promise {
        words: "With an advance of 24 samples in order 1, and of 48 in order 2, that is 2 units of \
                8,388,607 from the first sample on; with 64 in order 3 it is 12, and 2 from eight \
                samples later on.",
        theorem: "literals",
        proof: "crates/rule/proofs/Literals.antt",
        states: "Literals",
        statement: "crates/rule/specs/Literals.antt",
    },
    Promise {
        words: "Most pitches are better than that. What the coefficients of a pitch's filter add up to is \
                mostly far below the half that the figure above reckons with, and a sample is never further \
                away than this sum makes it: less than the figure above, or as much, for every pitch.",
        theorem: "own_click",
        proof: "crates/rule/proofs/Click.antt",
        states: "OwnClick",
        statement: "crates/rule/specs/OwnFigure.antt",
    },
    Promise {
        words: "So 16 samples of advance are enough for 2 units at every pitch in order 1, and 42 in order 2; \
                in order 3 39 are enough for A4 at 44,100 samples a second, and 64 for all but 147 of the 4,096 \
                fractions of a sample.",
        theorem: "own_literals",
        proof: "crates/rule/proofs/OwnLiterals.antt",
        states: "OwnLiterals",
        statement: "crates/rule/specs/OwnLiterals.antt",
    },
    Promise {
        words: "No sample is left out: at each moment a change is in force and the figure holds of it, \
                or none has been yet, and the sample is exactly that of the first filter.",
        theorem: "speaks",
        proof: "crates/rule/proofs/Cover.antt",
        states: "Spoken",
        statement: "crates/rule/specs/Demands.antt",
    },
    Promise {
        words: "It holds of every score that is run, also of one that is refused half-way.",
        theorem: "listed",
        proof: "crates/score/proofs/Calls.antt",
        states: "Listed",
        statement: "crates/score/specs/Listed.antt",
    },
    Promise {
        words: "It holds of every list of calls that a host makes on one voice.",
        theorem: "clicks",
        proof: "crates/list/proofs/Clicks.antt",
        states: "Clicks",
        statement: "crates/list/specs/Clicks.antt",
    },
    Promise {
        words: "Each sample is the one that the written rule gives, and no other.",
        theorem: "agrees",
        proof: "crates/rule/proofs/Agreement.antt",
        states: "Agrees",
        statement: "crates/rule/specs/Demands.antt",
    },
    Promise {
        words: "A call that cannot be done is refused by the number that its condition has, and under no \
                other condition; nothing is promised by turning calls down.",
        theorem: "refuses",
        proof: "crates/rule/proofs/Refusals.antt",
        states: "Refuses",
        statement: "crates/rule/specs/Refusals.antt",
    },
    Promise {
        words: "What is recorded reads back as it was, rate and samples.",
        theorem: "round_trip",
        proof: "crates/wav/proofs/Theorems.antt",
        states: "RoundTrip",
        statement: "crates/wav/specs/Theorems.antt",
    },
];

#[cfg(test)]
mod tests {
    use super::*;

    /// Each theorem is where the page says, and states what it says.
    #[test]
    fn theorems_are_there() {
        let root = std::path::Path::new(env!("CARGO_MANIFEST_DIR")).join("..");
        let read = |file: &str| std::fs::read_to_string(root.join(file)).expect(file);
        for promise in &PROMISES {
            let (proof, statement) = (read(promise.proof), read(promise.statement));
            let starts =
                |line: &str| line.trim_start().starts_with(&format!("pub {} :", promise.theorem));
            assert!(proof.lines().any(starts), "{}: {}", promise.proof, promise.theorem);
            let words = ["record", "data", "abbrev"];
            let named = |line: &str| {
                let mut line = line.split_whitespace().filter(|word| !words.contains(word));
                line.next() == Some("pub") && line.next() == Some(promise.states)
            };
            assert!(statement.lines().any(named), "{}: {}", promise.statement, promise.states);
            assert!(proof.contains(promise.states), "{}: {}", promise.proof, promise.states);
        }
    }
}
