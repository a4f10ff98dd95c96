//! The wrong monitors: one switch each, taken from document 01's slips, from the monitors that its
//! demands shut out, from the orders and limits of documents 01 and 02. The generated cases must tell every one of them
//! apart from the right implementation; a case list that cannot is too weak.

/// Wrong monitors with their names and what they do; and the functions that they can be wrong of, none where it may be any.
struct Group {
    of: &'static [&'static str],
    monitors: &'static [(Wrong, &'static str, &'static str)],
}

/// One of them.
pub struct Monitor {
    pub wrong: Wrong,
    pub name: &'static str,
    pub does: &'static str,
    of: &'static [&'static str],
}

impl Monitor {
    /// Whether it comes into question for this function. To others it gives the right answers.
    pub fn bears_on(&self, function: &str) -> bool {
        self.of.is_empty() || self.of.contains(&function)
    }
}

macro_rules! wrong_monitors {
    ($([$($function:literal),*] $($name:ident: $does:literal,)*)*) => {
        #[derive(Clone, Copy, PartialEq, Eq, Debug)]
        pub enum Wrong {
            /// The right implementation.
            Nothing,
            $($($name,)*)*
        }

        const GROUPS: &[Group] = &[$(
            Group { of: &[$($function),*], monitors: &[$((Wrong::$name, stringify!($name), $does),)*] },
        )*];
    };
}

wrong_monitors! {
    // The moves.
    ["feed", "run", "list", "listing"]
    FullLineThenTake: "adds to a full line and only then takes",
    TakesNewest: "takes from the newest end of the line",
    OutputResetsRun: "an output resets the run of losses",
    ArrivalResetsRun: "an arrival resets the run of losses",
    TakeKeepsRun: "a take does not reset the run of losses",
    LosesUpToBound: "allows c losses in a row",
    LosesOneFewer: "allows c - 2 losses in a row",
    NeverLoses: "forgets that inputs may be lost",
    ReadsNotAllowed: "reads 255 as a state number",
    OneMoreWaits: "lets B + 1 inputs wait",
    OneFewerWaits: "lets B - 1 inputs wait",
    TakesBeforeEvent: "takes and loses before the event too",
    MovesOnce: "takes or loses at most once after an event",
    // What the demands shut out.
    ["feed", "run", "list", "listing"]
    FixedVerdict: "always answers the one configuration (0,0,0)",
    Unmoved: "hands the session back unmoved",
    RepeatsFirst: "judges the first event and then repeats itself",
    InventsWaiting: "always says that 0 to B inputs may wait",
    InventsRun: "always says that 0 to c - 1 inputs may be lost",
    EveryState: "calls every state plausible",
    []
    RefusesValid: "refuses the last output symbol",
    // Flags and counts.
    ["feed", "run", "list", "listing"]
    FlagOneLate: "tells the flag one place late",
    FlagAtLast: "moves the flag to the last event",
    SetRefilled: "starts anew after a flag",
    CountsStop: "stops counting after a flag",
    HeldStops: "does not keep up the held inputs after a flag",
    HeldForgetsOldest: "holds one input too few",
    // Orders of refusal.
    []
    InvalidBeforeLimit: "tests 7 before 9",
    LossesBeforeWaiting: "tests 6 before 5",
    LengthBeforeStates: "tests 1 before 2",
    BoundsBeforeEntries: "tests 5 and 6 before 4",
    EntriesByColumn: "reads the entries for 4 column by column",
    OutputsBeforeInputs: "looks at outputs before inputs for 3",
    RoomBeforeEvents: "tests 10 before 7",
    StandardBeforeCounts: "tests 14 before 3",
    StandardEntries: "tests 4 with source 1, before 1",
    StandardRowsPass: "lets rows pass with source 1",
    EventRoomFirst: "looks at the event buffer before the row buffer for 10",
    ChecksFirst: "tests all checks before any other part of a block",
    LimitOneLow: "takes one event fewer than the limit",
    LimitOneHigh: "takes one event more than the limit",
    InvalidFromOne: "counts the place of 7 from 1",
    // House files.
    ["read", "list", "write", "again", "rebind", "retrace", "mend", "listing"]
    WeightsFromZero: "weighs the check's bytes from 0",
    CheckByWord: "takes the check modulo 65,536",
    CheckReduced: "reduces the stored check before comparing",
    FillOverlooked: "does not look at the fill",
    ShortFollowed: "lets a short block be followed by its own kind",
    OrderOverlooked: "lets rows follow events",
    NumberOverlooked: "does not look at the block number",
    SecondByteOverlooked: "does not look at byte 1",
    UsedUpToPayload: "lets block 0 use more than 6 bytes",
    BlocksSixteen: "reads files of 16 blocks",
    // Which part of a block is told, and where.
    ["read", "list", "again", "rebind", "retrace", "listing"]
    ThirteenStill: "still gives 13",
    NumberBeforeKind: "tests 21 before 20",
    OrderLast: "looks at the block order after all other parts",
    UsedBeforeNumber: "tests 22 before 21",
    FillBeforeUsed: "tests 23 before 22",
    FillBeforeNumber: "tests 23 before 21",
    NumberBeforeByteOne: "looks at the number before byte 1",
    FillBeforeSource: "looks at the fill before the source",
    OffsetNotTold: "tells no offset",
    OffsetOfByteOne: "tells 1 for every 21",
    OffsetOfByteThree: "tells 3 where only the number's high byte is wrong",
    OffsetOfByteFive: "tells 5 where the used count's high byte is wrong",
    OffsetOfSource: "tells 11 for every 23",
    OffsetOfLastStray: "tells the last byte that should be zero",
    OffsetInPayload: "counts the offset of 23 from the payload's start",
    OffsetInFile: "counts the offset from the file's start",
    // The standard box.
    ["list", "standard", "listing"]
    RepeatIgnored: "has the standard box ignore a poll that it has already met",
    RepeatNotInRowZero: "has the standard box repeat no report in row 0",
    RepeatsWhileUnreported: "has the standard box repeat a report while others are unreported",
    // Captures.
    ["import", "hand"]
    OrderIgnored: "reads every capture least byte first",
    LinkLowByte: "looks at the low byte of the link type only",
    LinkLowHalf: "looks at the low half of the link type only",
    VersionOverlooked: "does not look at the version",
    NanosecondsTaken: "takes the magic of nanoseconds",
    CapturedOverlooked: "does not look at the captured length",
    OriginalOverlooked: "does not look at the original length",
    RestOverlooked: "does not look at bytes left after the last record",
    HeaderAloneRefused: "refuses a header with no records",
    LayoutWide: "takes octets up to 31 and 159",
    OctetsBeforeLengths: "tests 7 before 16",
    LimitBeforeLengths: "tests 9 before 16",
    ImportsAsRead: "imports as the reader reads, record by record",
    EndBeforeHeader: "reports the end before it tests 15",
    LimitAtIndex: "tells the index with 9, and not the index plus one",
    EventNotPassed: "stays at an event",
    EndPassed: "moves on from the end",
    RefusalPassed: "moves on from a refused record",
    CountForSecond: "tells the events of an import in place of the second place",
    ThereForSecond: "tells whether there is an event in place of the second place",
    // Written files.
    ["write", "again", "rebind", "retrace", "mend"]
    CutToBytes: "cuts counts and bounds to a byte before it tests them",
    RoomFirst: "tests 10 before all other numbers",
    RoomForMost: "asks for the room of the longest file",
    RoomOneMore: "refuses a buffer that is just long enough",
    RoomOfPayload: "tells the length of the payloads with 10",
    UsedHighFirst: "writes the used count with the high byte first",
    FillLeft: "leaves what was in the buffer as fill",
    ShortFirst: "writes the short block of a kind first",
    EmptyAfterFull: "writes an empty block after a full one",
    EmptyForNone: "writes an empty block where there are no rows or events",
    NumbersByKind: "numbers the blocks of each kind from 0",
    BoundsSwapped: "writes c for B and B for c",
    SourceLost: "writes source 0 for the standard box",
    StandardWrittenOut: "writes the rows of the standard box",
    // House files made from others.
    ["rebind"]
    RebindReads: "rebinds what the reader reads, and no other file",
    RebindOwnBounds: "refuses to rebind a file for its own bounds",
    RebindTellsOwn: "tells the file's own bounds with 5 and 6",
    RebindBoundsFirst: "tests the new bounds before the file",
    RebindBoundsBeforeCounts: "tests the new bounds before 2, 3, 14, 1 and 4",
    RebindRoomOfGood: "has no room for more rows or events than a good file has",
    RebindBoundsLast: "tests the new bounds after the file's trace",
    RebindKeepsLosses: "sets B and keeps c",
    RebindKeepsCheck: "sets the bounds and keeps the check",
    ["retrace"]
    RetraceTraceOverlooked: "does not look at the old trace",
    RetraceBoundsOverlooked: "does not look at the bounds before it puts in a trace",
    RetraceNumberFirst: "counts the new trace before it looks at the file",
    RetraceInvalidFirst: "tests 7 before 9 of the new trace",
    RetraceRoomOfOld: "asks for the room of the old file",
    RetraceAppends: "puts the new trace after the old one",
    RetraceTailKept: "leaves blocks of the old trace behind a shorter one",
    ["mend"]
    MendEmpty: "takes a file without blocks",
    MendRefusesChecks: "refuses a file for the check of a later block",
    MendRefusesParts: "refuses a block 0 of which a part is wrong",
    MendAllChecks: "puts the checks of all blocks right",
    MendClearsFill: "puts the fill of block 0 right too",
    MendLowByte: "puts the low byte of the check right only",
    MendBlockAlone: "writes block 0 alone",
    MendSparesRight: "writes nothing where the check is right",
    // Memory handed over.
    []
    WritesWhenRefused: "writes what fits although the buffer is too short",
    ClearsRest: "sets later bytes of a buffer to 0",
    TellsWhenRefused: "tells counts of a refused file",
    ["open"]
    RefusedOpeningKept: "hands out a session with a refused opening",
    RefusedOpeningCleared: "puts zeros over the session with a refused opening",
    RefusedOpeningClearsWords: "puts zeros over the session's words with a refused opening",
    RefusedOpeningClearsBytes: "puts zeros over the session's bytes with a refused opening",
    ["feed"]
    RefusedFeedCleared: "hands out a session of zeros with a refused feed",
    ["rebind", "retrace", "mend", "listing"]
    ResultsOneMore: "answers false to results that are just long enough",
    ResultsInPart: "tells what it can in results that are too short",
    ResultsCleared: "sets later results to 0",
    WritesWithoutResults: "writes although the results are too short",
    ["listing"]
    TextRoomOfText: "asks for no more room than the text needs",
    TextRoomOneMore: "answers false to room for the text that is just enough",
    // The listing.
    ["list", "listing"]
    ListingStops: "leaves out the events after the flag",
    ListingShouts: "writes upper-case digits",
    ListingOneDash: "writes one dash for both pairs",
    ListingUnended: "leaves the last line open",
    ListingOnePlace: "leaves out the column for 4",
    ListingNoOffset: "leaves out the offset for 20 to 23",
    ListingNoLastOffset: "leaves out the offset for 23",
    ListingOffsetFirst: "writes the offset before the block",
    ["listing"]
    ListingKeptLength: "tells with 11 how much of the file was lent",
    ListingRefusedUnsaid: "writes no line for a refused file",
    ListingNumberless: "tells no number for a refused file",
    ListingFlagPlace: "tells the flag's place without one more",
    ListingCountsSwapped: "tells the events before the length of the text",
    ListingCountsUnended: "does not count the last line feed",
    ListingCountsLines: "counts lines for events",
    // Clauses of soundness, each overlooked by one monitor.
    ["feed"]
    UnsoundStates: "overlooks the session's count of states",
    UnsoundInputs: "overlooks the session's count of inputs",
    UnsoundOutputs: "overlooks the session's count of outputs",
    UnsoundEntries: "overlooks the session's entries",
    UnsoundWaitingBound: "overlooks the session's B",
    UnsoundLossBound: "overlooks the session's c",
    UnsoundSetStates: "overlooks states outside the table",
    UnsoundSetWaiting: "overlooks waiting counts above B",
    UnsoundSetRun: "overlooks runs of c and more",
    UnsoundSetArrived: "overlooks waiting counts above the inputs seen",
    UnsoundHeld: "overlooks held inputs that are not valid",
    UnsoundHeldRest: "overlooks unused places of the held inputs",
    UnsoundRowsRest: "overlooks unused places of the table",
    UnsoundArrived: "overlooks more inputs than events",
    UnsoundEvents: "overlooks more events than the limit",
    UnsoundFlagPlace: "overlooks a flag at or after the events seen",
    UnsoundFlagged: "overlooks a flag beside a set that is not empty",
    UnsoundUnflagged: "overlooks an empty set without a flag",
}

/// Every wrong monitor, in the order above.
pub fn all() -> impl Iterator<Item = Monitor> {
    GROUPS.iter().flat_map(|Group { of, monitors }| {
        monitors.iter().map(|(wrong, name, does)| Monitor { wrong: *wrong, name, does, of })
    })
}

/// The wrong monitor of that name.
pub fn named(name: &str) -> Option<Wrong> {
    all().find(|monitor| monitor.name == name).map(|monitor| monitor.wrong)
}

#[cfg(test)]
mod tests {
    use super::*;
    use crate::case::FUNCTIONS;
    use crate::generate;

    /// What a group does not name is answered rightly, so that it need not be tried.
    #[test]
    fn groups_name_every_function_they_can_be_wrong_of() {
        let mut tried = 0;
        for case in generate::batch(2, 0).iter().step_by(3) {
            let right = case.answer(Wrong::Nothing);
            for monitor in all().filter(|monitor| !monitor.bears_on(FUNCTIONS[case.function()].0)) {
                tried += 1;
                assert!(case.answer(monitor.wrong) == right, "{} of {}", monitor.name, FUNCTIONS[case.function()].0);
            }
        }
        assert!(tried > 10_000);
    }

    #[test]
    fn groups_name_functions_that_there_are() {
        for function in GROUPS.iter().flat_map(|group| group.of) {
            assert!(FUNCTIONS.iter().any(|(name, _)| name == function), "{function}");
        }
    }
}
