//! What draws by tables of document 01's order came across.

use super::Coverage;
use crate::model::draw::{Call, Drawn};

impl Coverage {
    /// Counts a draw by a table's reordering, and one by the table as it is: in which of the two orders the table is right, and
    /// what tells the orders apart.
    pub fn count_orders(&mut self, reordered: (&Call, &Drawn), as_it_is: (&Call, &Drawn)) {
        let refusals = [reordered.1.answer.refusal, as_it_is.1.answer.refusal];
        let mut see = |case: &str, expected: [u32; 2], met: bool| self.see(case, refusals == expected && met);
        see("right in neither order", [3, 3], true);
        see("right in document 01's order alone, by high words", [0, 3], high_words_fall(as_it_is.0));
        see("right in document 01's order alone, by low words", [0, 3], !high_words_fall(as_it_is.0));
        see("right in document 02's order alone, by high words", [3, 0], high_words_fall(reordered.0));
        see("right in document 02's order alone, by low words", [3, 0], !high_words_fall(reordered.0));
        let differ = base_samples(reordered.1) != base_samples(as_it_is.1);
        see("right in both orders, with other base samples", [0, 0], differ);
        see("right in both orders, with the same base samples", [0, 0], !differ);
    }
}

fn high_words_fall(call: &Call) -> bool {
    call.cdt.windows(2).take(9).any(|pair| pair[1] < pair[0])
}

fn base_samples(drawn: &Drawn) -> Vec<u64> {
    drawn.attempts.iter().map(|attempt| attempt.x).collect()
}
