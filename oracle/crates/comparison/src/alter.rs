//! Results altered on purpose, so that a self-test can see that differences are reported.

use crate::manner::Manner;
use std::cell::Cell;

/// The calls that read whole takes, each of them in two manners.
#[derive(Clone, Copy, PartialEq, Eq, Debug)]
pub enum Call {
    Opening,
    ExportSize,
    Export,
    ConvertSize,
    Convert,
    JoinSize,
    Join,
    TidySize,
    Tidy,
    SplitSizes,
    Split,
    ExcerptSize,
    Excerpt,
}

const CALLS: [Call; 13] = [
    Call::Opening,
    Call::ExportSize,
    Call::Export,
    Call::ConvertSize,
    Call::Convert,
    Call::JoinSize,
    Call::Join,
    Call::TidySize,
    Call::Tidy,
    Call::SplitSizes,
    Call::Split,
    Call::ExcerptSize,
    Call::Excerpt,
];

macro_rules! alterations {
    (in_both { $($both:ident,)* } in_one { $($one:ident,)* }) => {
        #[derive(Clone, Copy, PartialEq, Eq, Debug)]
        pub enum Alter {
            Nothing,
            $($both,)*
            $($one,)*
            /// The strict call reads leniently.
            Lenient(Call),
            /// The lenient call reads strictly.
            Strict(Call),
            /// The strict call writes what the lenient one does before it refuses with 16 or 17.
            WrittenFirst(Call),
        }

        /// Of calls that read whole takes.
        const IN_BOTH: &[Alter] = &[$(Alter::$both),*];

        /// Of the other calls, and of the manners.
        const IN_ONE: &[Alter] = &[$(Alter::$one),*];
    };
}

alterations! {
    in_both {
        OpeningRefusal,
        OpeningCount,
        OpeningPlace,
        IkStatesDropped,
        SmallestFrame,
        SmallestFrameOfNone,
        SmallestFrameAsNone,
        FramesSwapped,
        LargestFrame,
        ScratchPosition,
        ScratchPastItsEnd,
        ScratchInRefusal,
        ScratchRoundedDown,
        ScratchPlaceForEach,
        ScratchOneMore,
        ScratchHoldsEach,
        ExportByte,
        ExportPastItsEnd,
        ExportIkStatesDropped,
        ExportInRefusal,
        ExportSize,
        JoinTurned,
        JoinSize,
        JoinByte,
        SplitSizes,
        SplitRefusal,
        SplitInRefusal,
        SplitPastItsEnd,
        SplitNameEnd,
        SplitNamesSorted,
        SplitIndex,
        SplitNanMadeQuiet,
        SplitWeight,
        SplitPerspective,
        SplitIkEnabled,
        SplitInterpolation,
        OlderRefused,
        OlderCutIsOther,
        OlderWholeMagic,
        OlderSectionsFrom50,
        OlderPlaces,
        OlderScratch,
        OlderExportSize,
        OlderExportMagic,
        OlderExportName,
        ConvertSize,
        ConvertSizeOfLongName,
        ConvertTenRefused,
        ConvertElevenAccepted,
        ConvertOlderRefused,
        ConvertLongNameFirst,
        ConvertShortFirst,
        ConvertExactRefused,
        ConvertInRefusal,
        ConvertByte,
        ConvertPastItsEnd,
        ConvertNewerMagic,
        ConvertMagicKept,
        ConvertNameKept,
        ConvertNameOf20,
        JoinOlderDropped,
        SplitOlderSizes,
        TidySize,
        TidyExportAsked,
        TidyOutputFirst,
        TidyPlaceForEach,
        TidyScratchFirst,
        TidyFirstKept,
        TidyTracksByName,
        TidyTrackUnsorted,
        TidyLastFrameDropped,
        TidyOneTrack,
        TidyIkStates,
        TidyModelName,
        TidyDropsNothing,
        TidyPastItsEnd,
        TidyInRefusal,
        TidyScratchInRefusal,
        TidyFiguresInRefusal,
        TidyScratchLeft,
        TidyScratchPastItsEnd,
        TidyKept,
        TidyDropped,
        TidyRawNames,
        TidyReturnCuts,
        TidyLineFeedFirst,
        TidyLineFeedAt8,
        TidyLineFeedAt14,
        TidyRemarkCut,
        TidyFirstName,
        SplitRemarkCut,
        ExcerptSize,
        ExcerptSizeWithoutStates,
        ExcerptFirstExcluded,
        ExcerptLastExcluded,
        ExcerptBonesUnfiltered,
        ExcerptMorphsUnfiltered,
        ExcerptCamerasUnfiltered,
        ExcerptLightsUnfiltered,
        ExcerptSelfShadowsUnfiltered,
        ExcerptPropertiesUnfiltered,
        ExcerptBonesUnshifted,
        ExcerptMorphsUnshifted,
        ExcerptCamerasUnshifted,
        ExcerptLightsUnshifted,
        ExcerptSelfShadowsUnshifted,
        ExcerptPropertiesUnshifted,
        ExcerptSigned,
        ExcerptShiftedFirst,
        ExcerptSmallestSubtracted,
        ExcerptCounts,
        ExcerptSorted,
        ExcerptModelName,
        ExcerptIkStates,
        ExcerptIkStatesOfNumber,
        ExcerptWholeIsFile,
        ExcerptOlderMagic,
        ExcerptAboveAccepted,
        ExcerptAboveByOne,
        ExcerptAboveTurned,
        ExcerptOneFrameRefused,
        ExcerptReadFirst,
        ExcerptOutputFirst,
        ExcerptExportAsked,
        ExcerptExactRefused,
        ExcerptAboveWritten,
        ExcerptShortWritten,
        ExcerptSlotInRefusal,
        ExcerptSizeInRefusal,
        ExcerptPastItsEnd,
        ExcerptByte,
    }
    in_one {
        NanMadeQuiet,
        ZeroSignLost,
        MorphWeight,
        PerspectiveTurned,
        SelfShadowMode,
        LightSwapped,
        IkEnabled,
        NameLonger,
        InterpolationMoved,
        OutsideAccepted,
        FetchPlaceOfNumber,
        FetchFromFirstPlace,
        FetchWithoutWalk,
        FetchWalkTooLong,
        FetchWalkOf14,
        IkStateWithoutWalk,
        IkNameWithoutWalk,
        FrameAtVisible,
        FrameAtNext,
        FrameAtNextWithoutStates,
        FrameAtOutside,
        FrameAtStatesCut,
        FrameAtInRefusal,
        JoinModelName,
        BuildRefusal,
        BuildByte,
        BuildInRefusal,
        NameTest,
        NamePlace,
        NamePairAccepted,
        NamePairRefused,
        NameRangeRefused,
        NamePairPlace,
        BuildPairAccepted,
        BuildPairRefused,
        BuildRangeRefused,
        SeasonTotal,
        SeasonRecords,
        SeasonSmallest,
        SeasonLargest,
        SeasonNamesOfRecords,
        SeasonMorphNames,
        SeasonRawBoneNames,
        SeasonRawMorphNames,
        SeasonReturnCuts,
        SeasonLineFeedFirst,
        SeasonLineFeedAt8,
        SeasonLineFeedAt14,
        SeasonAccepted,
        SeasonInRefusal,
        SeasonPassed,
        SeasonRefused,
        SeasonMean,
        SeasonNone,
        OlderFrameAt,
        OlderNameOf20,
        OlderNameMissing,
        JoinOlderModelName,
        SeasonOlderRefused,
        CamerasEmptied,
        LightsEmptied,
        SelfShadowsEmptied,
        OversizedAtTheEnd,
        OversizedByOne,
        OverAfterNone,
        OverAfterFrames,
        OverOneByte,
        OlderLenient,
        JoinSecondLenient,
        JoinSecondFirst,
        OverAccepted,
        OversizedAccepted,
        OverAs17,
        OversizedAs16,
        OverAs1,
        OverBefore1,
        OversizedMorphs,
        MissingCountRefused,
        ScratchBeforeManner,
        OutputBeforeManner,
        LongNameBeforeManner,
        PartsBeforeManner,
        TidyScratchBeforeManner,
        ExcerptOutputBeforeManner,
        SeasonStrict,
    }
}

/// Every alteration, and the manner to which it is confined.
pub fn alterations() -> impl Iterator<Item = (Alter, Option<Manner>)> {
    let of_calls = CALLS.into_iter().flat_map(|call| [Alter::Lenient(call), Alter::Strict(call), Alter::WrittenFirst(call)]);
    let anywhere = IN_BOTH.iter().chain(IN_ONE).copied().chain(of_calls).map(|what| (what, None));
    anywhere.chain(IN_BOTH.iter().map(|&what| (what, Some(Manner::Strict))))
}

thread_local! {
    static ALTERED: Cell<Alter> = const { Cell::new(Alter::Nothing) };
    static ONLY_IN: Cell<Option<Manner>> = const { Cell::new(None) };
    static UNDER_WAY: Cell<Manner> = const { Cell::new(Manner::Lenient) };
}

pub fn alter(what: Alter, only_in: Option<Manner>) {
    ALTERED.set(what);
    ONLY_IN.set(only_in);
}

/// A call that reads whole takes begins, in this manner.
pub fn call_begins(manner: Manner) {
    UNDER_WAY.set(manner);
}

pub fn altered(what: Alter) -> bool {
    ALTERED.get() == what && ONLY_IN.get().is_none_or(|manner| manner == UNDER_WAY.get())
}
