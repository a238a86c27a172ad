//! Makes a call in archive and reference and compares all that they leave.

use super::{Answer, Call, Kind};
use crate::support::hex;

impl Call {
    /// Makes the call in both, which have to leave the same answer and the same bytes; a refused call leaves all as it was.
    /// Where it carries a count it is made with that too, which has to be the same in both and to change nothing else.
    #[track_caller]
    pub fn both(&mut self) -> Answer {
        let before = self.clone();
        let mut reference = self.clone();
        let answer = self.archive();
        let expected = reference.reference();
        assert_eq!(
            answer,
            expected,
            "the archive's answer to {}",
            before.short()
        );
        self.expect_bytes(&reference, &before.short());
        if !answer.accepted() {
            self.expect_bytes(&before, &format!("refused {}", before.short()));
        }
        if before.carries() {
            let mut other = before.clone();
            let (counted, probe) = other.counted();
            assert_eq!(probe, counted.count, "the count of {}", before.short());
            assert_eq!(answer, counted.answer.into(), "{}", before.short());
            self.expect_bytes(&other, &format!("counted {}", before.short()));
        }
        answer
    }

    /// Stops the test at the first byte that is not the one expected.
    #[track_caller]
    pub fn expect_bytes(&self, expected: &Call, what: &str) {
        let parts = [
            ("anchor", &self.anchor, &expected.anchor),
            ("card", &self.card, &expected.card),
            ("block", &self.block, &expected.block),
            ("ranges", &self.ranges, &expected.ranges),
            ("plan", &self.plan, &expected.plan),
            ("messages", &self.messages, &expected.messages),
            ("tag", &self.tag, &expected.tag),
            ("raised", &self.raised, &expected.raised),
            ("journal", &self.journal, &expected.journal),
        ];
        let differing = parts.into_iter().find(|(_, is, wanted)| is != wanted);
        let Some((name, is, wanted)) = differing else {
            return;
        };
        assert_eq!(is.len(), wanted.len(), "{what}: length of {name}");
        let differs = is.iter().zip(wanted).position(|(is, wanted)| is != wanted);
        let at = differs.expect("a byte that differs");
        let (is, wanted) = (is[at], wanted[at]);
        panic!("{what}: byte {at} of {name} is {is:02x} and not {wanted:02x}");
    }

    /// The call in one line.
    pub fn short(&self) -> String {
        let common = format!(
            "anchor {}, card of {} bytes",
            hex(&self.anchor),
            self.card.len()
        );
        match self.kind {
            Kind::Put => format!(
                "Put at node {}, plan {}, tag {}, {common}",
                self.node,
                hex(&self.plan),
                hex(&self.tag)
            ),
            Kind::Recover => format!("Recover from {}, {common}", hex(&self.journal)),
            kind => format!(
                "{kind:?} of block {}, {common}, lengths of block {}, ranges {}, plan {}, messages {}, raised {}, journal {}",
                self.index,
                self.block.len(),
                self.ranges.len(),
                self.plan.len(),
                self.messages.len(),
                self.raised.len(),
                self.journal.len()
            ),
        }
    }
}
