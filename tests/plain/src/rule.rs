//! The rules that can be broken one at a time, to see whether a driver notices.

/// Document 01, or document 01 but for one rule.
#[derive(Clone, Copy, Debug, Default, PartialEq, Eq)]
pub struct Reading {
    pub broken: Option<Rule>,
}

impl Reading {
    pub fn breaks(self, rule: Rule) -> bool {
        self.broken == Some(rule)
    }
}

macro_rules! rules {
    ($domain:ident: $($inside:ident)*; $beyond:ident: $($outside:ident)*;) => {
        #[derive(Clone, Copy, Debug, PartialEq, Eq)]
        pub enum Rule { $($inside,)* $($outside,)* }

        impl Rule {
            /// Rules that show inside the domain of equality with the original.
            pub const $domain: &'static [Rule] = &[$(Rule::$inside),*];
            /// Rules that show only beyond it.
            pub const $beyond: &'static [Rule] = &[$(Rule::$outside),*];

            pub fn all() -> impl Iterator<Item = Rule> {
                Rule::$domain.iter().chain(Rule::$beyond).copied()
            }
        }
    };
}

rules! {
    IN_DOMAIN:
    // the store
    HighestFreeSlot
    SlotExactlyMetRefused
    NeverSpills
    AlwaysSpills
    FullNamesFirst
    EmptyPacketIsNone
    FreeLengthShown
    SixteenSlotBits
    SixteenSubpoolBits
    MissingNamedAsGiven
    BufferExactlyMetRefused
    ReadClearsBuffer
    WholeSlotRead
    // packets and stamps
    ShortestPacketRefused
    CheckCodeAtTheVeryEnd
    UserDataToTheVeryEnd
    BytesAfterTotalCut
    ApidTwelveBits
    SequenceFlagsKept
    SourceIdFromService
    EpochDay
    MillisecondsDropped
    // insertion
    SubserviceBeforeService
    NoDataIsABadStamp
    NestedAnySubservice
    MarginEndRefused
    MarginBeforeStore
    CarryLost
    NanosFirst
    NanosIgnored
    SecondsUnsigned
    MarginNanosIgnored
    EqualTimesInFront
    LastRowNeverUsed
    // windows and deletions
    WindowStartExcluded
    WindowEndExcluded
    PointWindowReversed
    EmptyWindowNamesItsPlace
    FirstMatchRemoved
    LatestTimeFirst
    FirstRefusalReported
    MissingKeepsItsEntry
    MissingByIdStays
    ResetLeavesEnabled
    // the tick
    DueOnlyBefore
    TotalFourTooSmall
    OffsetsFromFirstRecord
    OffsetOneRecordOn
    DisabledWithoutBytes
    DisabledKeepsPacket
    DeleteModeKeeps
    KeepModeDeletes
    LogAddressDecoded
    LogTailCleared
    // the record and the answer
    ClockKeepsItsNanos
    EnableDoesNothing
    DisableDoesNothing
    FullTableDamaged
    FullSlotDamaged
    FirstSecondRefused
    LastSecondRefused
    LargestMarginRefused
    ;
    BEYOND:
    // tables
    DeleteZeroesLengthOnly
    AddClearsTail
    VacatedRowKept
    EnabledWordRewritten
    EnabledOnlyByOne
    SpillingOnlyByOne
    AnswerWordsLeft
    FreshKeepsRows
    FreshStartsDisabled
    FreshClearsBeyondTheSetup
    // judging
    NineSubpools
    LongSetupAccepted
    MoreSlotsAccepted
    LargerSlotsAccepted
    EqualSlotSizesAccepted
    MoreEntriesAccepted
    StoreBytesNotJudged
    StoreCallsJudgeEntries
    BuffersBeforeSetup
    LensBeforeRowsRoom
    RowsPastCountJudged
    OrderNotJudged
    RowTimeNotJudged
    BillionNanosAccepted
    TimeBeforeDamage
    ReversedBeforeTime
    UnusedEndJudged
    ClockMendsDamage
    // packets and stamps
    PacketVersionIgnored
    PacketTypeIgnored
    SecondaryFlagIgnored
    PusVersionIgnored
    CheckCodeIgnored
    LongStampReadShort
    NextDaysMillisecond
    // insertion and the tick
    FullBeforeMargin
    LateInsertionKeepsItsSlot
    FullScheduleKeepsTheSlot
    IdOfFortyEightBits
    MissingStopsTheTick
    LimitIgnored
    LimitCutToByte
    MissingFlaggedDisabled
    MissingFlaggedByMark
    DeletedAfterAllTurns
    WholeLogUsed
    LogJudgedWithLimitZero
    LogTooSmallCarriesEight
    AllDueAnswered
    ;
}
