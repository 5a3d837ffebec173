//! The flusher is told to stop, and the registry ends, in each state; and the device fails. A journal without changes
//! uses 65 bytes.

/// The tables.
pub const TABLES: &str = r"0 0 before any change; a flusher that has stopped stays so
flusher stop > Done
flusher run > Stopped(0)
flusher turn > Stopped(0)
flusher stop > Done
flusher run > Stopped(0)
flusher room > Room(65)

2 0 with changes that aren't durable: it stops once they are, and hives have them, and the journal is trimmed
start > Session(0)
0 on A create 1 > Accepted(1)
0 on B create 1 > Accepted(2)
flusher stop > Done
flusher stop > Done
flusher turn > Step(JournalStep, More)
flusher run > Stopped(2)
flusher room > Room(65)

2 0 with a flush begun; and more is accepted after it has stopped
start > Session(0)
0 on A create 1 > Accepted(1)
0 flush > Receipt(1)
flusher turn > Step(FlusherStep { hive: 0 }, More)
flusher stop > Done
flusher run > Stopped(1)
flusher room > Room(65)
0 on B create 1 > Accepted(2)
flusher run > Stopped(2)

1 0 with sessions and a transaction open, which is as it was
start > Session(0)
start > Session(1)
0 on A create 1 > Accepted(1)
1 begin > Done
1 in 0 A set v 1 > Added
flusher stop > Done
flusher run > Stopped(1)
1 of 0 outcome > OutcomeIs(Active)
1 in 0 A get v > Byte(1)

2 0 a checkpoint does what a flusher does that is told to stop, and begins again after it
start > Session(0)
flusher checkpoint > Receipt(0)
0 on A create 1 > Accepted(1)
flusher checkpoint > Receipt(1)
flusher room > Room(65)
0 on B create 1 > Accepted(2)
flusher checkpoint > Receipt(2)

3 0 the hives take turns, also if the one before has work again; a trim comes last
start > Session(0)
0 on 2:A create 1 > Refused(NotFound)
0 on 0:A create 1 > Accepted(1)
0 on 1:A create 1 > Accepted(2)
0 flush > Receipt(2)
flusher hive > Step(FlusherStep { hive: 0 }, Done)
0 on 0:B create 1 > Accepted(3)
0 flush > Receipt(3)
flusher hive > Step(FlusherStep { hive: 1 }, Done)
flusher hive > Step(FlusherStep { hive: 0 }, Done)
flusher turn > Step(TrimStep, More)
flusher turn > Step(TrimStep, Done)
0 on 1:A info > Counts(0, 0, 1)
flusher room > Room(65)

0 0 the registry ends with a change that isn't durable
start > Session(0)
0 on A create 1 > Accepted(1)

0 0 and in the middle of a batch
start > Session(0)
0 on A create 1 > Accepted(1)
flusher turn > Step(JournalStep, More)

1 0 and in the middle of a flush
start > Session(0)
0 on A create 1 > Accepted(1)
0 flush > Receipt(1)
flusher turn > Step(FlusherStep { hive: 0 }, More)

0 4 the device fails in a step of a commit: what goes on, and what doesn't
start > Session(0)
0 begin > Done
0 begin > Done
0 in 0 A create 1 > Added
0 in 1 B create 1 > Added
fail > Done
0 of 0 commit 7 > Refused(DiskFault)
0 on A info > Counts(0, 0, 7)
0 of 1 commit 7 > Refused(Faulted)
0 on B info > Refused(NotFound)
0 in 1 B info > Counts(0, 0, 1)
0 of 1 outcome > Refused(Faulted)
0 of 1 rollback > Done
0 of 1 close > Done
0 begin > Refused(Faulted)
0 flush > Refused(Faulted)
start > Refused(Faulted)
flusher run > StepRefused(JournalStep, Faulted)
flusher checkpoint > Refused(Faulted)

0 4 the flusher meets the failure, in a step of the journal
start > Session(0)
0 begin > Done
0 in 0 B create 1 > Added
0 on A create 1 > Accepted(1)
fail > Done
flusher run > StepRefused(JournalStep, DiskFault)
0 of 0 commit 1 > Refused(Faulted)
0 on A info > Counts(0, 0, 1)
end > Done

1 8 and in a flush of a hive: what is durable stays so
start > Session(0)
0 on A create 1 > Accepted(1)
0 flush > Receipt(1)
fail > Done
flusher run > StepRefused(FlusherStep { hive: 0 }, DiskFault)
0 on B create 1 > Refused(Faulted)
0 on A info > Counts(0, 0, 1)
flusher run > StepRefused(FlusherStep { hive: 0 }, Faulted)

1 2 and in a trim
start > Session(0)
0 on A create 1 > Accepted(1)
0 flush > Receipt(1)
flusher hive > Step(FlusherStep { hive: 0 }, Done)
fail > Done
flusher run > StepRefused(TrimStep, DiskFault)
0 on A info > Counts(0, 0, 1)
";

/// Those that are played beside a flusher.
pub const BESIDE: &str = r"0 0 the flusher has nothing to do, and is told to stop

3 0 it is woken by a plain write and by a commit, as others see by the room that it frees
start > Session(0)
0 on A create 1 > Accepted(1)
flusher await 65 > Room(65)
0 begin > Done
0 in 0 A set v 1 > Added
0 of 0 commit 2 > Receipt(2)
0 on A get v > Byte(1)
flusher await 65 > Room(65)
0 on A set v 2 > Accepted(3)
0 on A get v > Byte(2)
";
