//! The call words: 64 sets at once, a word for each decision. The sets are taken one by one, each with the model of
//! its world.

use crate::engine::Engine;
use crate::policy::{ask, Query, Refusal, MOST_DECISIONS};

/// The sets that a word has bits for.
pub const SETS: u32 = 64;
/// The last w that may be asked for: 1,024 times 64 is 2^16.
pub const TOP_W: u32 = 1_023;

/// A word for each decision; those past the decision count are 0.
pub type Words = [u64; MOST_DECISIONS];

impl Engine<'_> {
    /// Bit i of a decision's word says whether the set with mask 64 * w + i is enough for that decision. It is 0 where
    /// the mask is none of the policy's or shares with done. What the query wants is asked question 3 alone.
    pub fn words(&mut self, query: &Query, w: u32) -> Result<Words, Refusal> {
        ask(3, w <= TOP_W)?;
        self.questions(query, 0)?;
        let mut words = [0; MOST_DECISIONS];
        for bit in 0..SETS {
            let set = SETS * w + bit;
            if self.policy.is_mask(set) && set & query.done == 0 {
                let world = self.world(query.done, set);
                let model = self.model(world);
                for (decision, word) in words.iter_mut().enumerate() {
                    *word |= ((model >> decision & 1) as u64) << bit;
                }
            }
        }
        Ok(words)
    }
}
