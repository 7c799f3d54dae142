//! The deliberate mistakes.

use Place::{Cuts, Frames, Lines, Mends, Passes, RingCalls, SliceCalls};

/// What a mistake shows in.
#[derive(Clone, Copy, Debug, PartialEq, Eq)]
pub enum Place {
    Frames,
    Lines,
    RingCalls,
    SliceCalls,
    Passes,
    Cuts,
    Mends,
}

impl Place {
    pub const ALL: [Place; 7] = [Frames, Lines, RingCalls, SliceCalls, Passes, Cuts, Mends];
}

/// Declares the mistakes, their list, and the places that each of them shows in.
macro_rules! mistakes {
    ($($places:tt { $($(#[doc = $text:literal])+ $name:ident,)+ })+) => {
        #[derive(Clone, Copy, Debug, PartialEq, Eq)]
        pub enum Mistake {
            $($($(#[doc = $text])+ $name,)+)+
        }

        impl Mistake {
            pub const ALL: &'static [Mistake] = &[$($(Mistake::$name,)+)+];

            pub fn places(self) -> &'static [Place] {
                match self {
                    $($(Mistake::$name => &$places,)+)+
                }
            }
        }
    };
}

mistakes! {
    [Frames] {
        // Document 01, "Lapses seen".
        /// Leaves off the closing vertex in the first pass only.
        LeavesOffInFirstPassOnly,
        /// Checks issues on parts inside the bounds.
        ChecksPartsInside,
        /// Lets flag 2 work alone.
        SkipsBridgesOnFlag2,
        /// Tests the bounds before NaN.
        BoundsBeforeFinite,
        /// Forgets that a repeat in the last segment is allowed.
        LastRepeatIsIssue,

        // The project's readings, "Wrong readings".
        /// Writes apart as an "or" of strict comparisons.
        ApartAsOr,
        /// Answers byte 1 for a multipolygon of dropped parts.
        ByteOneForDroppedParts,
        /// Looks for a bridge line by line instead of edge by edge.
        BridgeByLine,
        /// Gives 15 for missing coordinates before 17.
        MissingCoordinatesFirst,
        /// Gives 16 where a ring count is not whole.
        HalfRingCountIs16,
        /// Cuts at Left and copies through the other passes.
        CutsAtLeftOnly,

        // The routing, further.
        /// Counts only the exterior's coordinates as finite or not.
        FiniteByExterior,
        /// Takes touching as apart.
        TouchingIsApart,
        /// Takes the rectangle of the exterior for that of all rings.
        RectangleOfExterior,
        /// Looks whether the rectangle is inside before it looks for issues.
        InsideBeforeIssues,
        /// Takes an empty exterior with coordinates in a hole for nothing.
        EmptyExteriorIsNothing,
        /// Checks holes for issues too.
        ChecksHoles,
        /// Lets `assume_simple` skip the repeats as well.
        SimpleSkipsRepeats,
        /// Lets edges shorter than 1e-10 cross.
        ShortEdgesCross,
        /// Takes a touch of two edges for a crossing.
        TouchingEdgesCross,
        /// Lets edges cross whose boxes are apart.
        CrossesWithoutBoxes,
        /// Takes boxes that touch for apart.
        TouchingBoxesApart,
        /// Checks the input's issues only, not the cut's.
        CutIssuesUnseen,
        /// Lets flag 1 alone skip the bridges.
        SkipsBridgesOnFlag1,
        /// Looks for bridges along the bounds without the buffer.
        BridgesUnbuffered,
        /// Looks for bridges in holes too.
        BridgesInHoles,
        /// Takes an edge shorter than 1e-10 for a bridge.
        ShortBridges,
        /// Takes 1e150 itself for representable.
        RepresentableAtLimit,
        /// Looks at the exterior alone for magnitudes of 1e150.
        RepresentableByExterior,
        /// Looks at the whole multipolygon for magnitudes of 1e150.
        RepresentableByWhole,

        // The cut, further.
        /// Runs the passes Bottom, Top, Left, Right.
        LatitudesFirst,
        /// Keeps cut holes under four coordinates.
        KeepsShortHoles,
        /// Leaves out a cut exterior under four coordinates.
        LeavesOutShortExterior,

        // Multipolygons and frames, further.
        /// Lists the parts of a multipolygon that is inside as a whole.
        ListsWholeInside,
        /// Drops only the parts with a non-finite coordinate.
        DropsPartByPart,
        /// Numbers the listed parts by their place in the list.
        NumbersByList,
        /// Counts one guard for any number of dropped parts.
        CountsGuardOnce,
        /// Writes a NaN with its sign set.
        WritesNegativeNan,
        /// Refuses a multipolygon of no parts.
        RefusesNoParts,
        /// Tests the part count after the walk.
        PartCountAfterWalk,
        /// Asks for the ring lengths of 63 rings where there are 64.
        RoomForLessThan64Rings,
        /// Gives 22 for hardly any room before it reads the frame.
        RoomBeforeFrame,
        /// Ends cut parts with positions too.
        PositionsOnCutParts,
        /// Writes positions with the high byte first.
        PositionsBigEndian,

        // Origins in frames.
        /// Takes 18 bytes for a coordinate of a frame that is lent.
        LentCoordinatesOf18,
        /// Asks for 16 bytes of output for a coordinate.
        RoomOf16,
        /// Writes origins with the high byte first.
        OriginsBigEndian,
        /// Writes the origins of a ring behind all its coordinates.
        OriginsBehindRing,
    }

    [Frames, Mends] {
        /// Doesn't count the closing vertex towards the four of a ring.
        FourBesidesClosing,
        /// Takes 1e-10 itself for near.
        NearAtLimit,
        /// Leaves -0.0 and 0.0 unequal where a ring is closed.
        ZeroSignsKeepOpen,
    }

    [Frames, Passes] {
        /// Takes a vertex on the line for out.
        OnLineIsOut,
        /// Runs the crossing from the end to the start.
        CrossingFromEnd,
        /// Fuses product and sum of the crossing.
        FusesCrossing,
    }

    [Frames, Passes, Cuts] {
        /// Computes the bound's own coordinate of a crossing too.
        CrossingMissesBound,
    }

    [Cuts] {
        // How the free coordinate of a crossing is worked out.
        /// Goes the share of the way from the end.
        ShareFromEnd,
        /// Divides by the way from the end to the start.
        DivisorTurnedRound,
        /// Works out the share of the way in numbers of 32 bits.
        ShareOf32Bits,
        /// Interpolates the coordinate that the line bounds instead of the other one.
        FreeIsAcross,
        /// Moves it by 1/2^39.
        CrossingMoved,
        /// Answers a NaN for 0.
        NanForZero,

        // What the exact crossing is.
        /// Weights each end by its own distance from the line.
        WeightsExchanged,
    }

    [Frames, RingCalls, SliceCalls, Passes] {
        // Origins of a pass.
        /// Gives a crossing the origin of its end.
        CrossingHasEndsOrigin,
        /// Gives a crossing the origin of its start.
        CrossingHasStartsOrigin,
        /// Gives a crossing between two vertices of one line the number of that line.
        CornerHasEarlierLine,
        /// Gives a kept vertex that lies on the line the number of the line.
        OnLineHasLine,
        /// Gives a kept vertex that an earlier line made the number of the later one.
        KeptHasLaterLine,
        /// Numbers the vertices that are kept by their places in the ring that the pass gets.
        RenumbersInEachPass,
        /// Gives the first vertex the origin of the last one, which is left off.
        LeftOffGivesOrigin,
        /// Gives Left the number of Right, and Right that of Left.
        SwapsLeftAndRight,
        /// Gives Bottom the number of Top, and Top that of Bottom.
        SwapsBottomAndTop,
    }

    [Frames, RingCalls, SliceCalls] {
        // Origins of a ring.
        /// Finds origins by comparing coordinates: a crossing that equals a vertex of the input gets its position.
        OriginByComparing,
        /// Gives the closing vertex the origin of the last one.
        ClosingHasLastsOrigin,
        /// Gives the closing vertex the number of the last line.
        ClosingHasLine,
        /// Gives the closing vertex the position of the one that the ring was lent closed with.
        ClosingHasLentPosition,
        /// Numbers positions from 1.
        OriginsFromOne,
    }

    [Frames, SliceCalls] {
        // Origins of a polygon.
        /// Numbers positions in the whole part, so that holes go on where the ring before them ends.
        PositionsInPart,
        /// Gives the second closing vertex no origin, which is 0.
        SecondClosingHasNone,
        /// Gives the second closing vertex the number of the last line.
        SecondClosingHasLine,
    }

    [Passes] {
        /// Doesn't count the first verdict, on the last vertex as a start.
        FirstVerdictUncounted,
        /// Counts one verdict where no vertex is left.
        CountsOneForNone,
        /// Works out the verdict on every start anew.
        JudgesStartsAnew,
        /// Works out the verdict on the start once more at a crossing.
        JudgesAgainAtCrossing,
        /// Works out a verdict on the closing vertex that is left off.
        JudgesVertexLeftOff,
    }

    [Frames, SliceCalls, Mends] {
        /// Doesn't count a single coordinate with a NaN as two.
        NanSingleStaysOne,
        /// Takes the room for rings as they are lent.
        RoomUnclosed,
    }

    [Frames, SliceCalls] {
        /// Closes a cut ring once.
        ClosesCutRingsOnce,
    }

    [Frames, SliceCalls] {
        // Which pair and which corner.
        /// Tells the pair that a sweep by lowest x meets first.
        FirstHitOfSweep,
        /// Of the pairs with the lowest lower number tells the one that such a sweep meets first.
        LowestLowerOfSweep,
        /// Tells the first pair by higher and then by lower number.
        HigherMajor,
        /// Tells the last of the pairs that cross.
        LastCrossingFound,
        /// Looks for the pair before the ring is closed, and at the closing edge only where there is none.
        ClosingEdgeLast,
        /// Excepts the last segment of the ring before it is closed as well.
        ExceptsBeforeClosing,
        /// Tells the last of the repeated corners.
        LastRepeatFound,
        /// Tells the second of the two neighbours.
        SecondOfRepeated,
        /// Gives 7 for a short ring with a repeated corner.
        RepeatedBeforeShort,
        /// Looks for a crossing before a repeated corner.
        CrossingBeforeRepeated,

        // How they are numbered and told.
        /// Numbers corners and edges from 1.
        PositionsFromOne,
        /// Numbers an edge by the coordinate that it ends at, so that the closing edge is 0.
        EdgesByEnd,
        /// Tells the higher edge first.
        HigherEdgeFirst,
        /// Numbers the corners of the cut by their places in the input, where they have one.
        CutNumberedInInput,
        /// Gives 10 for a repeated corner of the cut and 9 for a crossing.
        SwapsCutReasons,
        /// Gives 1 and 2 for every issue, as before they were split.
        ReasonsMerged,
        /// Tells the number of the edge that runs along a bound.
        BridgeHasPosition,
    }

    [Frames, SliceCalls] {
        // Whether two edges that cross by the rounded test share a point.
        /// Doesn't ask for a shared point, as before.
        RoundedTestAlone,
        /// Asks for a shared point alone on the grid, and not what the rounded test says.
        ExactTestAlone,
        /// Takes a touch and an overlap for no shared point.
        ProperCrossingsOnly,
        /// Takes a stretch that two edges of one line have in common for no shared point.
        ParallelShareNone,
        /// Takes an end on the other edge's line for a shared point, wherever on the line it is.
        EndOnLineIsShared,
        /// Asks for a shared point in the check of the input only.
        ExactOfInputOnly,
        /// Asks for a shared point in the check of the cut only.
        ExactOfCutOnly,
        /// Tells the first pair by the rounded test where any pair crosses.
        RoundedPairTold,

        // Which numbers are on the grid.
        /// Asks it of all numbers of the ring.
        GridOfWholeRing,
        /// Reckons exactly off the grid too, as far as the numbers have room.
        ExactOffGrid,
        /// Takes 256 for off the grid.
        GridWithout256,
        /// Takes zeros for off the grid.
        GridWithoutZero,
        /// Takes an odd multiple of 1/2^48 for off the grid.
        CoarserGrid,
        /// Takes an odd multiple of 1/2^49 for on the grid.
        FinerGrid,
    }

    [Frames, RingCalls, SliceCalls] {
        /// Gives 22 only when the answer needs the room.
        RoomByAnswer,
    }

    [RingCalls] {
        /// Closes a cut ring twice.
        ClosesTwiceInRingCall,
        /// Takes the room for the ring closed.
        RoomClosedInRingCall,
    }

    [RingCalls, SliceCalls, Mends] {
        /// Gives 20 for 65,532 coordinates.
        LimitIsTooMany,
        /// Gives 20 over 65,536 coordinates, as before there were origins.
        FormerLimit,
    }

    [RingCalls, SliceCalls] {
        /// Gives 21 for the order slice alone, which a ring call has not.
        ScratchUnseen,
        /// Clears scratch only up to 2 x S, and order up to S.
        ClearsScratchUsed,
        /// Has already written when it refuses.
        WritesBeforeRefusing,
        /// Leaves the output past the answer as it was.
        KeepsOutputPastAnswer,
        /// Clears the output past the answer to the slice's end.
        ClearsOutputToEnd,
        /// Clears the output behind a cut's numbers, and leaves it as it was where there are none.
        ClearsOnCutOnly,
        /// Clears the output with -0.0.
        ClearsWithNegativeZeros,

        // The u16 slices.
        /// Doesn't ask for the u16 scratch slice in 21.
        OriginScratchUnseen,
        /// Asks of the u16 scratch slice 2 x S, as of the other one.
        OriginScratchInNumbers,
        /// Gives 22 for the u16 scratch slice.
        ShortOriginScratchIs22,
        /// Doesn't ask for the u16 output in 22.
        OriginsUnseen,
        /// Asks of the u16 output 2 x the sum of B, as of the other one.
        OriginsInNumbers,
        /// Gives 21 for the u16 output.
        ShortOriginsAre21,
        /// Leaves the u16 scratch slice as it was.
        KeepsOriginScratch,
        /// Clears the u16 scratch slice only up to S.
        ClearsOriginScratchUsed,
        /// Has already written to the u16 scratch slice when it refuses.
        WritesOriginsBeforeRefusing,
        /// Leaves the u16 output past the answer as it was.
        KeepsOriginsPastAnswer,
        /// Clears the u16 output past the answer to the slice's end.
        ClearsOriginsToEnd,
        /// Clears the u16 output behind a cut's origins, and leaves it as it was where there are none.
        ClearsOriginsOnCutOnly,
        /// Clears the u16 output as far as the output has numbers, which is twice as far.
        ClearsOriginsTwiceAsFar,
    }

    [SliceCalls] {
        /// Gives 20 ring by ring instead of for all rings together.
        LimitByRing,
        /// Adds up the lengths in 32 bits.
        WrapsLengths,
        /// Takes S over the exterior only.
        ScratchByExterior,
        /// Asks of the scratch slice the sum of the B instead of the largest.
        ScratchBySum,
        /// Clears the output as far as the rings ask for room as they are lent.
        ClearsByUnclosedLengths,
        /// Leaves the cut in the output where it finds an overlay after it.
        OverlayLeavesCut,
        /// Leaves the cut's origins in the u16 output where it finds an overlay after it.
        OverlayLeavesOrigins,
        /// Asks of the u16 scratch slice the sum of the B instead of the largest.
        OriginScratchBySum,
        /// Clears the second length slice past the answer.
        ClearsLengthsPastAnswer,
        /// Has 16 bits for a position, as a frame does.
        PositionsIn16Bits,
    }

    [Mends] {
        // Which coordinates are kept.
        /// Compares with the last one seen, kept or not.
        ComparesWithLastSeen,
        /// Of a run of near ones keeps the last.
        KeepsLastOfRun,
        /// Drops the closing one too, where it is near the last kept.
        DropsClosing,
        /// Begins with the second one, so that the first is dropped.
        BeginsWithSecond,
        /// Drops the first one where it is near the last before the closing one.
        DropsFirstNearLast,

        // What is near.
        /// Takes near in x or in y for near.
        NearInOneAxis,
        /// Takes a distance under 1e-10 for near, both axes together.
        NearByDistance,
        /// Takes equal for near, and nothing else.
        NearIsEqual,
        /// Takes a NaN for near everything: not at least 1e-10 apart.
        NanIsNear,
        /// Takes infinities for near that are equal.
        EqualIsNear,
        /// Compares the difference before it is rounded.
        DifferenceUnrounded,

        // How the ring is closed.
        /// Doesn't close it, and keeps the last one that was lent instead.
        LeavesOpen,
        /// Closes what is mended of the ring as it was lent, the last one of which it always keeps.
        MendsBeforeClosing,
        /// Takes a NaN for equal to a NaN where a ring is closed.
        NanEqualsNan,
        /// Closes the mended ring once more, which shows where its first one holds a NaN.
        ClosesMendedAgain,
        /// Writes the first one for the closing one, whose zeros may have other signs.
        ClosesWithFirst,

        // The refusals.
        /// Gives 19 after the others.
        OddLast,
        /// Gives 20 for the ring as it is lent.
        LimitUnclosed,
        /// Gives 20 for the coordinates that are kept.
        LimitByKept,
        /// Gives 22 before 20.
        RoomBeforeLimit,
        /// Gives 22 for the coordinates that are kept.
        RoomByKept,
        /// Gives 26 before 22.
        ShortBeforeRoom,
        /// Gives 26 under three coordinates.
        ThreeAreEnough,
        /// Answers 0 for a ring of no numbers.
        NoneOfNone,
        /// Has already written when it gives 26.
        WritesBeforeShort,

        // The answer and the output.
        /// Answers how many numbers are kept.
        AnswersNumbers,
        /// Leaves zeros past the answer as far as 22 asks, as ring calls do.
        ClearsPastKept,
        /// Leaves the last of the closed ring past the answer, as it moved the kept ones to the front of a copy.
        LeavesCopyPastKept,
    }

    [Lines] {
        /// Gives 11 for a long line before it looks at the digits.
        LengthBeforeDigits,
        /// Refuses upper-case digits.
        RefusesUpperCase,
        /// Passes over carriage returns.
        SkipsCarriageReturn,
        /// Passes over empty lines.
        SkipsEmptyLines,
        /// Passes over a last line without a newline.
        SkipsUnfinishedLine,
        /// Takes a last newline for the start of one more line.
        LineAfterLastNewline,
    }
}
