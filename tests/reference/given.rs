// A rule that a call is given, with the edition of OpenFlow that its controller speaks: checks 5 and 18, and its rank.
// No other place works a rank out: the table, the image and all that compares two rules have ranks only.

use crate::bits::Bits;
use crate::table::{record_words, refuse, rule_of, Refusal, Rule, EDITION, EXACT_RANK, PRIORITY_MOST, RULE};

/// "Each call that takes a rule names its edition (10 or 13; the script 13)."
pub const EDITION_10: u32 = 10;
pub const EDITION_13: u32 = 13;

#[derive(Clone, Copy, Debug, PartialEq, Eq)]
pub struct Given {
    pub id: u32,
    pub priority: u64,
    pub value: Bits,
    pub mask: Bits,
    pub action: u32,
}

impl Given {
    /// A rule is given as a record, whose last word is its priority; it may be unsound.
    pub fn of_record(record: &[u64], width: usize) -> Given {
        assert_eq!(record.len(), record_words(width));
        let Rule { id, rank: last_word, value, mask, action } = rule_of(record, width);
        Given { id, priority: last_word, value, mask, action }
    }

    pub fn record(&self, width: usize) -> Vec<u64> {
        self.with_rank(self.priority).record(width)
    }

    /// Check 5: "rule unsound (id 0, priority above 65,535, value outside mask)", whatever the edition.
    pub fn is_sound(&self) -> bool {
        self.id != 0 && self.priority <= PRIORITY_MOST && (self.value & !self.mask).is_none()
    }

    /// The rule as it would stand in a slot at a rank.
    pub fn with_rank(&self, rank: u64) -> Rule {
        Rule { id: self.id, rank, value: self.value, mask: self.mask, action: self.action }
    }

    /// Check 5, then 18, then the rule with its rank: "under 1.0 a rule with every mask bit set gets rank 65,536; any other rule's
    /// rank is its priority", and "from 1.1 on only the priority field counts".
    pub fn ranked(&self, width: usize, edition: u32) -> Result<Rule, Refusal> {
        if !self.is_sound() {
            return refuse(RULE, 0);
        }
        match edition {
            EDITION_10 if self.mask == Bits::all(width) => Ok(self.with_rank(EXACT_RANK)),
            EDITION_10 | EDITION_13 => Ok(self.with_rank(self.priority)),
            _ => refuse(EDITION, 0),
        }
    }
}
