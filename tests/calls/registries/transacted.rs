//! Transactions of one thread, with no flusher.

/// The tables.
pub const TABLES: &str =
    r"0 0 a claim refuses another transaction's write, and gives way to a plain one
start > Session(0)
0 on K create 1 > Accepted(1)
0 begin > Done
0 begin > Done
0 in 0 K set v 1 > Added
0 on K get v > Refused(NotFound)
0 in 0 K get v > Byte(1)
0 in 1 K set w 2 > Refused(Conflict)
0 of 1 outcome > OutcomeIs(Active)
0 on K set w 3 > Accepted(2)
0 of 0 outcome > OutcomeIs(RolledBack)
0 of 0 commit 0 > Refused(NotActive)
0 in 0 K set v 1 > Refused(NotActive)
0 of 1 commit 0 > Receipt(0)
0 of 1 outcome > OutcomeIs(Committed)
0 of 0 close > Done
0 of 0 outcome > Refused(NoSuchHandle)
0 of 0 commit 0 > Refused(NoSuchHandle)
0 in 0 K set v 1 > Refused(NoSuchHandle)
0 in 0 K get v > Refused(NoSuchHandle)
0 of 0 close > Refused(NoSuchHandle)

2 0 claims meet by folded names, and not by the beginnings of their texts; a transaction is of its session alone
start > Session(0)
start > Session(1)
0 begin > Done
1 begin > Done
0 in 0 Foo create 0 > Added
1 in 1 foo create 0 > Refused(Conflict)
1 in 1 fOO\Bar create 0 > Refused(Conflict)
1 in 1 Foobar create 0 > Added
1 of 0 commit 0 > Refused(NoSuchHandle)
1 of 1 commit 0 > Receipt(1)
0 on Foo info > Refused(NotFound)
0 of 0 commit 9 > Receipt(2)
1 learn > Done
1 on foo info > Counts(0, 0, 9)
0 flush > Receipt(2)

0 0 a transaction that is rolled back, and one whose session ends, claim nothing more
start > Session(0)
start > Session(1)
0 begin > Done
1 begin > Done
0 begin > Done
0 in 0 Z create 0 > Added
1 in 1 Z create 0 > Refused(Conflict)
0 of 0 rollback > Done
0 of 0 outcome > OutcomeIs(RolledBack)
0 of 0 rollback > Refused(NotActive)
1 in 1 Z create 0 > Added
0 in 2 Z create 0 > Refused(Conflict)
end > Done
0 in 2 Z create 0 > Added
0 on Z info > Refused(NotFound)

2 0 a transaction reads its view, at the moment of its last write; a commit is of its own moment
start > Session(0)
0 on K\L create 1 > Accepted(1)
0 begin > Done
0 in 0 K create 2 > Opened
0 in 0 K\M create 3 > Added
0 in 0 K key 0 > Named(76)
0 in 0 K key 1 > Named(77)
0 in 0 K key 2 > Refused(NotFound)
0 in 0 K open > Counts(2, 0, 3)
0 on K info > Counts(1, 0, 1)
0 in 0 K\L delete > Added
0 in 0 K\L open > Refused(NotFound)
0 in 0 K\M set v 4 > Added
0 in 0 K\M value 0 > Byte(4)
0 in 0 K\M unset V > Added
0 in 0 K\M info > Counts(0, 0, 0)
0 of 0 commit 5 > Receipt(2)
0 on K info > Counts(1, 0, 5)
0 on K\M info > Counts(0, 0, 5)

3 0 a whole transaction is one change, in several hives, or none; its place is free then
start > Session(0)
start > Session(1)
0 whole 7 create K set K v 1 create 1:L set 1:L w 2 set K v 3 > Receipt(1)
0 on K get v > Byte(3)
0 on 1:L get w > Byte(2)
0 on K info > Counts(0, 1, 7)
0 whole 8 set K v 4 set N v 5 set K v 6 > Refused(NotFound)
0 on K get v > Byte(3)
1 begin > Done
1 in 0 K set x 1 > Added
0 whole 9 set K x 2 > Refused(Conflict)
0 whole 9 set K y 2 > Refused(Conflict)
0 whole 9 create M set M y 2 delete 1:L > Receipt(2)
1 of 0 commit 9 > Receipt(3)
0 on K info > Counts(0, 2, 9)
0 on M get y > Byte(2)
0 on 1:L info > Refused(NotFound)
0 whole 9 > Receipt(0)
0 begin > Done
0 of 1 outcome > OutcomeIs(Active)
end > Done
1 whole 9 set K v 1 > Other
";
