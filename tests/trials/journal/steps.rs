//! Steps of a journal, after a check if they may be made: a test has to check what the engine knows.

use change_codec::EncodedChange;
use commit_journal::Journal;
use disk_model::{Disk, Progress};
use refusals::Refusal;
use refusals::limits::{GREATEST_NUMBER, MOST_ELEMENT_BYTES, MOST_JOURNAL_BYTES};

fn is_on_hives(change: &EncodedChange, hives: u8) -> bool {
    let mut left = change.hives();
    while let Some(hive) = left.next() {
        if hive >= hives {
            return false;
        }
    }
    true
}

/// Whether the journal may be handed these elements after the durable content.
pub fn may_hand(journal: &Journal, handed: &[EncodedChange]) -> bool {
    let last = journal.last_number();
    if last > GREATEST_NUMBER || handed.len() as u64 > GREATEST_NUMBER - last {
        return false;
    }
    let hives = journal.all_hives();
    let mut room = journal.used();
    for element in handed {
        let len = element.text_len();
        if len > MOST_ELEMENT_BYTES || !is_on_hives(element, hives) {
            return false;
        }
        if room > MOST_JOURNAL_BYTES {
            return false;
        }
        room += 17 + len;
    }
    room <= MOST_JOURNAL_BYTES || handed.is_empty()
}

/// One step with these elements after the durable content; `None` if the journal may not be handed them.
pub fn step<D: Disk>(
    journal: &mut Journal,
    disk: &mut D,
    handed: &[EncodedChange],
) -> Option<Result<Progress, Refusal>> {
    if !may_hand(journal, handed) {
        return None;
    }
    let first = journal.last_number() + 1;
    Some(journal.step(disk, first, handed))
}

/// One step of a trim; `None` if the journal may not be trimmed.
pub fn trim_step<D: Disk>(
    journal: &mut Journal,
    disk: &mut D,
) -> Option<Result<Progress, Refusal>> {
    if !may_trim(journal) {
        return None;
    }
    Some(journal.trim_step(disk))
}

/// Whether a trim is under way, or an element is durable and nothing is under way.
fn may_trim(journal: &Journal) -> bool {
    if journal.is_trimming() {
        return true;
    }
    !journal.is_halfway() && journal.last_number() > 0
}
