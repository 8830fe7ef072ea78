//! The beginning of the module of rows.

/// What the module uses, and what a row says.
pub const HEAD: &str = "\
-- Rows from another implementation of document 01: lists of calls and all that they give, as facts about the
-- definitions. It printed this text; proofs/Rows.antt proves them by computation. Assumes nothing.
use Rattle.std.specs.Prelude.{◌≡◌, List, [], ◌∷◌, ℕ, ℤ, pos, negsuc, length, take}
use Rattle.std.proofs.Math.Option.{none, some}
use Rattle.refusal.specs.Limits.{refusal}
use Rattle.rule.specs.Voice.{announced, asked, tuning, Voice}
use Rattle.rule.specs.Calls.{Call, block, loss, pluck, announce, instant, ask, commit, withdraw}
use Rattle.rule.specs.Calls.{Opening, open_limits}
use Rattle.rule.specs.State as State
use Rattle.rule.specs.State.{fresh, from, puts}

-- what it gives for an opening and a list of calls: Open's number; the number and the count of each call;
-- the samples put out; the voice that is left; its line, newest first, back to a zero from before opening
pub record Answers : Type 0 where
  pub opening : ℕ
  pub numbers : List ℕ
  pub counts : List ℕ
  pub outputs : List ℤ
  pub voice : Voice
  pub line : List ℤ

-- the definitions give the same
pub record Row (o : Opening) (cs : List Call) (a : Answers) : Type 0 where
  pub opening : refusal (open_limits o) ≡ a.opening
  pub numbers : State.numbers (fresh o) cs ≡ a.numbers
  pub counts : State.counts (fresh o) cs ≡ a.counts
  pub outputs : puts (fresh o) cs ≡ a.outputs
  pub voice : (from (fresh o) cs).voice ≡ a.voice
  pub line : take (length a.line) (from (fresh o) cs).line ≡ a.line

abbrev pub opens : List Opening → List ℕ
opens [] = []
opens (o ∷ os) = refusal (open_limits o) ∷ opens os

pub record Rows : Type 0 where
";
