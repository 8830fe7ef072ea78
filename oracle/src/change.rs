//! The announced, the asked and the instant change of order, L and d, with their eliminator.

use crate::allpass::Allpass;
use crate::refusal::{require, Answer, Refusal};
use crate::tuning::Tuning;
use crate::voice::{s_at, Kind, Voice, Waiting};

impl Waiting {
    /// A change whose eliminator is at rest and has taken nothing.
    fn at_rest(kind: Kind, tuning: Tuning) -> Waiting {
        Waiting { kind, tuning, eliminator: tuning.at_rest(), taken: 0 }
    }

    /// "its eliminator takes s(n − L')": the eliminator's own length, at step `n`.
    pub fn take(&mut self, s: &[i128], n: i128) {
        let f = s_at(s, n - i128::from(self.tuning.length));
        self.eliminator.eliminate(f);
        self.taken += 1;
    }

    /// The samples taken as a voice holds and shows them: "counted to Na".
    pub fn counted(&self, advance: u32) -> u32 {
        self.taken.min(advance)
    }
}

impl Voice {
    /// "Announced and instant change: 2, 3, then 6 a change waits." "A change now tests 1 before 2", and 3
    /// with the order that it names (document 02, L6). "Asking tests what a change tests". "A change that
    /// was asked for counts as waiting."
    fn test_change(&self, to: Tuning) -> Answer {
        to.test()?;
        require(self.waiting.is_none(), Refusal::ChangeWaits)
    }

    /// "L', d' and its state replace the voice's", and so does its order. "The line and last output carry
    /// over" (document 02, L6).
    fn replace(&mut self, tuning: Tuning, eliminator: Allpass) {
        self.tuning = tuning;
        self.filter = eliminator;
    }

    /// "If the eliminator has now taken Na samples, L', d' and its state replace the voice's". "An
    /// announced change acts as an ask that commits itself"; the eliminator of an asked one "keeps
    /// running".
    pub fn put_in_force(&mut self) {
        let advance = self.advance;
        let is_ready =
            |change: &mut Waiting| change.kind == Kind::Announced && change.taken == advance;
        if let Some(change) = self.waiting.take_if(is_ready) {
            self.replace(change.tuning, change.eliminator);
        }
    }

    /// "An announced change starts its eliminator at rest; with Na = 0 it takes effect in the call,
    /// from rest, and never waits." Refused, "The voice is unchanged".
    pub fn announced_change(&mut self, to: Tuning) -> Answer {
        self.test_change(to)?;
        self.waiting = Some(Waiting::at_rest(Kind::Announced, to));
        self.put_in_force();
        Ok(())
    }

    /// "Asking starts the eliminator", which "waits even with Na 0".
    pub fn ask(&mut self, to: Tuning) -> Answer {
        self.test_change(to)?;
        self.waiting = Some(Waiting::at_rest(Kind::Asked, to));
        Ok(())
    }

    /// "21 commit or withdraw with nothing asked"; an announced change "counts as nothing asked".
    fn asked(&self) -> Result<&Waiting, Refusal> {
        let waiting = self.waiting.as_ref();
        waiting.filter(|change| change.kind == Kind::Asked).ok_or(Refusal::NothingAsked)
    }

    /// "committing switches before the next sample". "20 commit before Na samples were taken"; "21
    /// is tested first and the voice is unchanged."
    pub fn commit(&mut self) -> Answer {
        let change = self.asked()?;
        require(change.taken >= self.advance, Refusal::CommitEarly)?;
        let (tuning, eliminator) = (change.tuning, change.eliminator.clone());
        self.replace(tuning, eliminator);
        self.waiting = None;
        Ok(())
    }

    /// "withdrawing drops it."
    pub fn withdraw(&mut self) -> Answer {
        self.asked()?;
        self.waiting = None;
        Ok(())
    }

    /// "An instant change before step n runs a resting eliminator over s(k − L') for k = n − Na to
    /// n − 1, then replaces L, d and the state; it also returns the number of samples run, which is
    /// Na." Refused, "The voice is unchanged; the instant change counts 0."
    pub fn instant_change(&mut self, to: Tuning) -> (Answer, u32) {
        let answer = self.test_change(to);
        if answer.is_err() {
            return (answer, 0);
        }
        let n = self.s.len() as i128;
        let mut change = Waiting::at_rest(Kind::Announced, to);
        for k in n - i128::from(self.advance)..n {
            change.take(&self.s, k);
        }
        self.replace(to, change.eliminator);
        (answer, change.taken)
    }
}
