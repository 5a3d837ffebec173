//! Calls of one thread, with no flusher.

/// The tables.
pub const TABLES: &str = r"0 0 keys are created, opened and deleted
start > Session(0)
0 on A info > Refused(NotFound)
0 on A create 1 > Accepted(1)
0 on A info > Counts(0, 0, 1)
0 on A create 2 > Opened
0 on A info > Counts(0, 0, 1)
0 on A\B create 3 > Accepted(2)
0 on A info > Counts(1, 0, 3)
0 on A key 0 > Named(66)
0 on A key 1 > Refused(NotFound)
0 on A delete > Refused(HasSubkeys)
0 on A\B delete > Accepted(3)
0 on A\B delete > Refused(NotFound)
0 on A\\B create 4 > Refused(BadName)

0 0 a value is set, read and deleted; names are folded
start > Session(0)
0 on A create 1 > Accepted(1)
0 on a set v 7 > Accepted(2)
0 on a get V > Byte(7)
0 on a set V 8 > Accepted(3)
0 on a get v > Byte(8)
0 on a value 0 > Byte(8)
0 on a value 1 > Refused(NotFound)
0 on a unset v > Accepted(4)
0 on a get v > Refused(NotFound)
0 on a unset v > Refused(NotFound)

2 0 what one session makes durable another reads once it has learnt the receipt
start > Session(0)
start > Session(1)
0 on C create 9 > Accepted(1)
0 flush > Receipt(1)
1 learn > Done
1 on C info > Counts(0, 0, 9)
1 on D create 10 > Accepted(2)
1 flush > Receipt(2)

0 0 32 sessions may be open; the number of one that has ended is given again; one that isn't open can do nothing
fill > Done
start > Refused(NoSeat)
end > Done
start > Session(31)
31 on C create 1 > Accepted(1)
0 on C info > Counts(0, 0, 1)
31 on C info > Counts(0, 0, 1)
end > Done
closed > Session(32)
31 on C info > Refused(NoSuchHandle)
31 on D create 1 > Refused(NoSuchHandle)
end > Refused(NoSuchHandle)
";
