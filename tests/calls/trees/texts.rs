//! What refusals print.
use crate::trees::fixtures::says;
use refusals::{Cause, Refusal};
use std::alloc::Global;

// whether a refusal prints as a text
fn prints(alloc: Global, refusal: Refusal, text: &str) -> Result<bool, Refusal> {
    Ok(refusal.to_string(alloc)?.as_str() == text)
}

const TEXTS: [(Refusal, &str); 17] = [
    (Refusal::NoMemory, "E1 NoMemory"),
    (Refusal::NotFound, "E2 NotFound"),
    (Refusal::HasSubkeys, "E3 HasSubkeys"),
    (Refusal::BadName, "E4 BadName"),
    (Refusal::TooDeep, "E5 TooDeep"),
    (Refusal::TooLarge, "E6 TooLarge"),
    (Refusal::Conflict, "E7 Conflict"),
    (Refusal::NotActive, "E8 NotActive"),
    (Refusal::NoSuchHandle, "E9 NoSuchHandle"),
    (Refusal::NoSeat, "E10 NoSeat"),
    (Refusal::JournalFull, "E11 JournalFull"),
    (Refusal::HistoryFull, "E12 HistoryFull"),
    (Refusal::DiskFault, "E13 DiskFault"),
    (Refusal::Faulted, "E14 Faulted"),
    (Refusal::JournalDamaged, "E16 JournalDamaged"),
    (Refusal::Unsupported, "E17 Unsupported"),
    (Refusal::Fixed, "E18 Fixed"),
];

#[test]
fn a_refusal_prints_its_number_and_name(rt: HostRuntime) {
    for (refusal, text) in TEXTS {
        says(&rt, prints(rt.alloc(), refusal, text), true, text);
    }
}

const DAMAGES: [(u8, Cause, &str); 13] = [
    (0, Cause::Truncated, "E15 HiveDamaged 0 Truncated"),
    (1, Cause::BadBase, "E15 HiveDamaged 1 BadBase"),
    (2, Cause::BadBin, "E15 HiveDamaged 2 BadBin"),
    (3, Cause::BadCell, "E15 HiveDamaged 3 BadCell"),
    (4, Cause::BadOffset, "E15 HiveDamaged 4 BadOffset"),
    (5, Cause::BadRecord, "E15 HiveDamaged 5 BadRecord"),
    (6, Cause::BadList, "E15 HiveDamaged 6 BadList"),
    (7, Cause::BadName, "E15 HiveDamaged 7 BadName"),
    (8, Cause::Shared, "E15 HiveDamaged 8 Shared"),
    (9, Cause::BadLog, "E15 HiveDamaged 9 BadLog"),
    (10, Cause::NotClean, "E15 HiveDamaged 10 NotClean"),
    (15, Cause::BadStore, "E15 HiveDamaged 15 BadStore"),
    (255, Cause::TooLarge, "E15 HiveDamaged 255 TooLarge"),
];

#[test]
fn a_damaged_hive_prints_its_number_and_cause(rt: HostRuntime) {
    for (hive, cause, text) in DAMAGES {
        let refusal = Refusal::HiveDamaged { hive, cause };
        says(&rt, prints(rt.alloc(), refusal, text), true, text);
    }
}
