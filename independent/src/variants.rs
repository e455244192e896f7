//! Deliberately wrong variants of the program, to show that the generated journals find mistakes.
//!
//! `Rules` says which variant is on; by default none is, and then every function here leaves the rules
//! as they are. Each variant is read at exactly one place: here, in `channels`, in `freeze`, in `groups`, in `labels`,
//! in `maps`, in `marks`, in `outcomes`, in `stores`, in `threads`, or at the one place in the reader that it speaks of.
//! Typed lines have variants of their own, in `lines`, and so have the chains behind a 9, in `chains`.

mod channels;
mod freeze;
mod groups;
mod labels;
mod maps;
mod marks;
mod outcomes;
mod stores;
mod threads;

use std::cmp::Reverse;

use crate::calls::{shape_of_code, Call, Numbers, Shape};
use crate::labels::Label;
use crate::monitor::{Answer, Monitor};
use crate::needs::{label, Flow, Needs, Thing};
use crate::numbers::{self, Malformed};
use crate::records::{Body, BodyFault};
use crate::refusals::{sought_flow, Condition};
use crate::replies::{Content, Step, LONGEST_JOURNAL};
use crate::tables::{Direction, Kind, Limits, Tables, LIMITS};
use channels::bend_connected;
use freeze::bend_frozen;
use groups::bend_fall_answer;
use labels::{bend_labelled, bend_lost};
use maps::bend_mapped;
use marks::bend_marked;
use outcomes::{bend_answer, bend_effect, bend_refused};
use stores::{bend_space, bend_stored};
use threads::{bend_thread_answer, bend_threaded};

/// A list of wrong programs: an enum of them, and a constant with all.
macro_rules! variants {
    ($enum:ident $all:ident; $($name:ident $word:literal $what:literal;)*) => {
        /// One wrong program.
        #[derive(Clone, Copy, Debug, PartialEq, Eq)]
        pub enum $enum { $($name),* }

        /// Every variant with its name on the command line and what it does wrong.
        pub const $all: &[($enum, &str, &str)] = &[$(($enum::$name, $word, $what)),*];
    };
}

// They use the list above.
pub mod chains;
pub mod lines;

variants! {
    Variant ALL;
    // Limits.
    Level16Allowed "level-16-allowed" "takes levels 0 to 16";
    Level15Refused "level-15-refused" "takes levels 0 to 14";
    Place16Allowed "place-16-allowed" "has places 0 to 16";
    Place15Refused "place-15-refused" "has places 0 to 14";
    Subject32Allowed "subject-32-allowed" "has subjects 0 to 32";
    Subject31Refused "subject-31-refused" "has subjects 0 to 30";
    Live65Allowed "live-65-allowed" "lets 65 objects live";
    Live64Refused "live-64-refused" "lets 63 objects live";
    // Needs.
    OneFlowFar "one-flow-far" "a need looks one flow far, not along a chain";
    FourPasses "four-passes" "gives up after four passes over the handles";
    ThirtyPasses "thirty-passes" "gives up after thirty passes over the handles";
    RunningMaximum "running-maximum" "keeps a need as a running maximum that never sinks";
    ReadingNoFlow "reading-no-flow" "reading handles carry no flow";
    PipesNoFlow "pipes-no-flow" "a need does not pass through pipes";
    FilesNoFlow "files-no-flow" "a file's need is its own level, whoever reads it";
    // Flow tests.
    OpenerOnly "opener-only" "an open tests the level of the opener only";
    ObjectOnly "object-only" "an open tests the level of the object only";
    EndsOnly "ends-only" "an open tests opener and object, nothing upstream";
    SubjectsOnly "subjects-only" "an open tests the levels of subjects only";
    PipesUntested "pipes-untested" "an open does not test the levels of pipes";
    FilesUntested "files-untested" "an open does not test the levels of files";
    OpensUntested "opens-untested" "no open is tested";
    OpensRefused "opens-refused" "every open is refused with 9";
    EqualRefused "equal-refused" "an open for writing that needs exactly the opener's level is refused";
    ExecUntested "exec-untested" "exec is not tested against the need";
    ExecOwnFiles "exec-own-files" "exec looks only at files that the caller itself writes to";
    ExecByLevel "exec-by-level" "exec of a file below the caller's level is refused";
    // The freeze.
    Freeze17Allowed "freeze-17-allowed" "takes a freeze of 17";
    Freeze16Refused "freeze-16-refused" "refuses a freeze of 16 with 6";
    FreezeIgnored "freeze-ignored" "no open is refused with 15";
    FreezeAboveOnly "freeze-above-only" "a file at the freeze's own level is not frozen";
    FreezeBelow "freeze-below" "files below the freeze are frozen, and not those at or above it";
    FreezeBySubject "freeze-by-subject" "the opener's level is held against the freeze, not the file's";
    Freeze0AsNone "freeze-0-as-none" "a freeze of 0 freezes nothing";
    Freeze15AsNone "freeze-15-as-none" "a freeze of 15 freezes nothing";
    FreezePipes "freeze-pipes" "a pipe at or above the freeze is not opened for writing";
    FreezeReads "freeze-reads" "a frozen file is not opened for reading";
    FreezeCutsOff "freeze-cuts-off" "a write on a held handle of a frozen file is refused with 15";
    FreezeForks "freeze-forks" "a subject that has a frozen file open for writing may not fork";
    FreezeCreates "freeze-creates" "no file is created at or above the freeze";
    FreezeRegisters "freeze-registers" "no file is registered at or above the freeze";
    FreezeExecs "freeze-execs" "a frozen file is not run";
    FreezeRetires "freeze-retires" "a frozen file is not retired";
    // The same calls are refused, and 15 is said of one that offends the flow rule alone.
    Reads15 "15-for-reads" "says 15 of an open for reading of a frozen file that offends the flow";
    Maps15 "15-for-maps" "says 15 of a map of a frozen file that offends the flow";
    Execs15 "15-for-execs" "says 15 of an exec of a frozen file that offends the flow";
    Pipes15 "15-for-pipes" "says 15 of an open for writing of a pipe at or above the freeze that offends the flow";
    Lower15 "15-for-lower-files" "says 15 of an open for writing of a file below the freeze that offends the flow";
    Connects15 "15-for-connects" "says 15 of a connect that offends the flow, while there is a freeze";
    // The other way round: the freeze is said, and is not a reason of its own.
    FreezeWithFlow "freeze-with-flow" "a frozen file may be opened for writing where the flow is not offended";
    // Marks: what is refused.
    MarkedTested "marked-tested" "exec tests the need with the caller's marked handles in";
    OthersLeftOut "others-left-out" "exec leaves the marked handles of all subjects out of its test";
    OneLeftOut "one-left-out" "exec leaves only the first marked handle out of its test";
    FilesLeftOut "files-left-out" "exec leaves only marked handles on files out of its test";
    AllLeftOut "all-left-out" "where one handle is marked, exec leaves all of the caller's out of its test";
    OpensLeaveOut "opens-leave-out" "an open leaves the opener's marked handles out of its test";
    MarkedRunsAll "marked-runs-all" "exec by a subject with a marked handle is not tested";
    MarkTwiceRefused "mark-twice-refused" "marking a marked handle is refused with 7";
    MarkEmptyAllowed "mark-empty-allowed" "a mark of an empty place is allowed";
    MarkPlace16Allowed "mark-place-16-allowed" "a mark of a place above 15 is allowed";
    MarkWritingOnly "mark-writing-only" "a mark of a reading handle is refused with 8";
    MarkReadingOnly "mark-reading-only" "a mark of a writing handle is refused with 8";
    MarkFilesOnly "mark-files-only" "a mark of a handle on a pipe is refused with 5";
    FreezeMarks "freeze-marks" "a mark of a handle on a frozen file is refused with 15";
    MarkedCutOff "marked-cut-off" "a marked handle is neither read nor written";
    MarkedNotClosed "marked-not-closed" "a marked handle is not closed by a close";
    MarkedAsFree "marked-as-free" "an open may take the place of a marked handle";
    MarkedRetired "marked-retired" "a file on which only marked handles are may be retired";
    // Mappings: what is refused. That exec leaves the mappings out of its test cannot be told (RULES R110), nor
    // whether a map is tested before the fall or after it (RULES R119).
    MapUntested "map-untested" "a map is not tested against the need";
    MapperOnly "mapper-only" "a map tests the level of the mapper only";
    MapAsWriting "map-as-writing" "a map is tested as an open for writing";
    MapPipe "map-pipe" "a pipe may be mapped";
    MapTakenPlace "map-taken-place" "a map may take a place that is in use";
    MapPlace16Allowed "map-place-16-allowed" "a map at a place above 15 is allowed";
    MapTwiceRefused "map-twice-refused" "a file that the subject has mapped is not mapped again: 7";
    MapSharedRefused "map-shared-refused" "a file that another subject has mapped is refused with 10";
    MapWrittenRefused "map-written-refused" "a file that is open for writing is not mapped: 10";
    FreezeMaps "freeze-maps" "a frozen file is not mapped";
    MappedCutOff "mapped-cut-off" "a read on a mapping is refused with 8";
    MappedWritten "mapped-written" "a write on a mapping is not refused";
    MappedNotClosed "mapped-not-closed" "a mapping is not closed by a close";
    MappedNotMarked "mapped-not-marked" "a mark of a mapping is refused with 7";
    MappedAsFree "mapped-as-free" "an open may take the place of a mapping";
    MappedRetired "mapped-retired" "a file on which only mappings are may be retired";
    MappedWriteRefused "mapped-write-refused" "a write to a file that is mapped is refused with 10";
    // Channels: what is refused. Whether the two flows of a connect are tested together or one by one cannot be
    // told: a chain of flows through both pipes passes s or t twice, and is there without what lies between.
    ConnectUntested "connect-untested" "a connect is not tested against the need";
    ConnectForwardOnly "connect-forward-only" "a connect tests the flow from s to t only";
    ConnectBackOnly "connect-back-only" "a connect tests the flow from t to s only";
    ConnectCallerOnly "connect-caller-only" "a connect tests the level of s only";
    ConnectEndsOnly "connect-ends-only" "a connect tests the levels of s and t, nothing upstream";
    ConnectEqualOnly "connect-equal-only" "a connect of subjects at different levels is refused with 9";
    ConnectToItself "connect-to-itself" "a subject may be connected to itself";
    PartnerUntested "partner-untested" "a connect to a subject that is not there is not refused with 2";
    SamePipeAllowed "same-pipe-allowed" "both pipes of a connect may have one number";
    FirstPipeUntested "first-pipe-untested" "the first pipe's number may be in use";
    SecondPipeUntested "second-pipe-untested" "the second pipe's number may be in use";
    ConnectSamePlace "connect-same-place" "a connect may read and write at one place";
    ConnectPlace16Allowed "connect-place-16-allowed" "a connect at a place above 15 is allowed";
    PlacesAtCallerOnly "places-at-caller-only" "a connect tests the places of s only";
    PlacesAtPartnerOnly "places-at-partner-only" "a connect tests the places of t only";
    ReadingPlacesOnly "reading-places-only" "a connect may write at a place that is in use";
    FreezeConnects "freeze-connects" "a subject at or above the freeze is not connected";
    // Threads: what is refused. That a connect of two mates is tested cannot be told: data flows between them already.
    ThreadCallerUntested "thread-caller-untested" "a thread of a subject that is not there is not refused with 2";
    ThreadItselfAllowed "thread-itself-allowed" "a thread to the caller's own number is allowed";
    ThreadItself16 "thread-itself-16" "a thread to the caller's own number is refused with 16";
    Thread32Allowed "thread-32-allowed" "a thread to a number above 31 is allowed";
    ThreadTakesLive "thread-takes-live" "a thread takes a live subject into the group";
    ThreadInUse7 "thread-in-use-7" "a thread to a number in use is refused with 7";
    ThreadOfHolder7 "thread-of-holder-7" "a subject that has handles makes no thread: 7";
    ThreadByFirstOnly "thread-by-first-only" "a member that a thread made is refused with 2 as the maker of another";
    GroupOf8 "group-of-8" "a group has at most eight members";
    FreezeThreads "freeze-threads" "a subject at or above the freeze makes no thread";
    FullThreads "full-threads" "a thread is refused with 17 while 64 objects are live";
    MatesNoFlow "mates-no-flow" "no data flows between members";
    MatesFlowDown "mates-flow-down" "data flows from a member to those with higher numbers only";
    MatesFlowUp "mates-flow-up" "data flows from a member to those with lower numbers only";
    OpensLeaveMatesOut "opens-leave-mates-out" "an open leaves the opener's mates out of its test";
    ExecMatesTested "exec-mates-tested" "exec tests the need with the caller's mates and their handles in";
    ExecOneMateTested "exec-one-mate-tested" "exec leaves all mates but the highest number out of its test";
    ExecLowerMatesTested "exec-lower-mates-tested" "exec leaves mates with higher numbers only out of its test";
    ExecAllGroupsLeftOut "exec-all-groups-left-out" "exec leaves the members of all groups out of its test";
    MatesRunAll "mates-run-all" "exec by a member that has mates is not tested";
    MatesRunNone "mates-run-none" "exec by a member that has mates is refused with 10";
    ConnectMates16 "connect-mates-16" "a connect of two members of one group is refused with 16";
    MatesPlacesTaken "mates-places-taken" "a place that a mate has in use is taken";
    MatesHandlesUsed "mates-handles-used" "at an empty place a member has the handle that a mate has there";
    ForkKeepsNeed "fork-keeps-need" "a fork's child needs what its parent's group needed then";
    // The host's own file numbers: which objects there are, and how many.
    BeforeRequestH "before-request-h" "has objects 0 to 63 and numbers up to 4294967295, as before request (h)";
    NewAbove63 "new-above-63" "a new object above 63 is refused with 3";
    NewAbove32Bits "new-above-32-bits" "a new object above 4294967295 is refused with 3";
    NewAbove63Bits "new-above-63-bits" "a new object of 2 to the 63rd or above is refused with 3";
    LargestRefused "largest-refused" "object 18446744073709551615 is refused with 3 as new";
    NamedAbove63 "named-above-63" "an object above 63 is never found: 4";
    InUseMod64 "in-use-mod-64" "a new object is refused with 3 where a live one has its number modulo 64";
    InUseLow32 "in-use-by-low-32-bits" "a new object is refused with 3 where a live one has its lower 32 bits";
    FoundMod64 "found-mod-64" "an object that is not live is found by its number modulo 64";
    FoundLow32 "found-by-low-32-bits" "an object that is not live is found by its lower 32 bits";
    RegisterUncounted "register-uncounted" "a register is not refused with 17";
    CreateUncounted "create-uncounted" "a create is not refused with 17";
    PipeUncounted "pipe-uncounted" "a pipe is not refused with 17";
    ConnectUncounted "connect-uncounted" "a connect is not refused with 17";
    ConnectCountsOne "connect-counts-one" "a connect with 63 objects live is not refused with 17";
    ConnectCountsThree "connect-counts-three" "a connect with 62 objects live is refused with 17";
    FilesCounted "files-counted" "64 files may be live, whatever else is";
    PipesCounted "pipes-counted" "64 pipes may be live, whatever else is";
    SeventeenAs3 "17-as-3" "says 3 where there is no space";
    FullOpens "full-opens" "an open is refused with 17 while 64 objects are live";
    FullForks "full-forks" "a fork is refused with 17 while 64 objects are live";
    RetiredTakesSpace "retired-takes-space" "a retired file makes no space";
    EndedTakesSpace "ended-takes-space" "an ended pipe makes no space";
    ExitTakesSpace "exit-takes-space" "a pipe that an exit ends makes no space";
    ExecTakesSpace "exec-takes-space" "a pipe that an exec ends makes no space";
    SpaceByNumber "space-by-number" "what is gone makes space for its own number alone";
    // Labels: what is at least what, in the test of an open, a map, a connect and an exec. Whether one label is said to be
    // below another or not to be at least it is the same; that it is at most it is another thing.
    SetsIgnored "sets-ignored" "goes by levels alone, and loses no mark";
    LevelAlone "level-alone" "levels alone are tested against a need";
    SetAlone "set-alone" "sets alone are tested against a need";
    EitherEnough "either-enough" "a label is at least a need where its level is or its set is";
    BelowIsLess "below-is-less" "a label is below a need only where the need is at least it";
    LevelFirst "level-first" "a higher level is at least a need, whatever the sets";
    SetFirst "set-first" "a larger set is at least a need, whatever the levels";
    ComparedAsNumbers "compared-as-numbers" "labels are compared as 256 times the level and the set";
    SetsAsNumbers "sets-as-numbers" "sets are compared as the numbers that they are";
    SetsByCount "sets-by-count" "sets are compared by how many marks they have";
    OneMarkEnough "one-mark-enough" "a set includes another where they have a mark in common";
    SetReversed "set-reversed" "a set includes another where that one has all of its marks";
    SetsEqual "sets-equal" "a set includes no other but itself";
    AboveOnly "above-only" "a level that equals a need's is not enough";
    MoreMarksOnly "more-marks-only" "a set that equals a need's is not enough";
    Group0Untested "group-0-untested" "the mark of group 0 is not tested";
    Group7Untested "group-7-untested" "the mark of group 7 is not tested";
    OpenReadByLevel "open-read-by-level" "an open for reading tests levels alone";
    OpenWriteByLevel "open-write-by-level" "an open for writing tests levels alone";
    MapByLevel "map-by-level" "a map tests levels alone";
    ConnectByLevel "connect-by-level" "a connect tests levels alone";
    ExecSetsUntested "exec-sets-untested" "exec tests the level of the file alone";
    AskerByLevel "asker-by-level" "an open tests the level of the opener alone, and the labels of all others";
    UpstreamByLevel "upstream-by-level" "an open tests the label of the opener, and the levels alone of all others";
    SubjectsByLevel "subjects-by-level" "an open tests the levels alone of subjects";
    PipesByLevel "pipes-by-level" "an open tests the levels alone of pipes";
    FilesByLevel "files-by-level" "an open tests the levels alone of files";
    // Labels: what a need has.
    NeedMeetsSets "need-meets-sets" "a need has the marks that all files have which are reached";
    NeedOfHighest "need-of-highest" "a need is the label of the highest files alone";
    NeedOfLargest "need-of-largest" "a need is the largest label, as 256 times the level and the set";
    NeedTakenWhole "need-taken-whole" "a need takes another label whole where its level is higher, and else no mark of it";
    NeedWithoutSets "need-without-sets" "a flow hands on the level of a need and not its set";
    NeedLargestSet "need-largest-set" "a need has the largest of the sets, as numbers";
    NeedSevenGroups "need-seven-groups" "a flow does not hand on the mark of group 7";
    PassesByLevel "passes-by-level" "the passes end once no level changes";
    RunningSets "running-sets" "the level of a need sinks, and its set never does";
    RunningLevels "running-levels" "the set of a need sinks, and its level never does";
    SetsSinkWithLevel "sets-sink-with-level" "the set of a need sinks only where its level does";
    LevelSinksWithSet "level-sinks-with-set" "the level of a need sinks only where its set does";
    // Labels: which sets are taken.
    Set256Allowed "set-256-allowed" "takes sets 0 to 256";
    Set255Refused "set-255-refused" "takes sets 0 to 254";
    SetUntested "set-untested" "a set above 255 is taken";
    AdmitSetUntested "admit-set-untested" "a set above 255 is taken by an admit";
    RegisterSetUntested "register-set-untested" "a set above 255 is taken by a register";
    SixNeedsBoth "6-needs-both" "6 is said only where level and set are both too high";
    SetAbove15Refused "set-above-15-refused" "a set above 15 is refused with 6";
    SetOf0Refused "set-of-0-refused" "a set without any mark is refused with 6";
    SetAbove255As7 "set-above-255-as-7" "a set above 255 is refused with 7";
    SetMod256 "set-mod-256" "takes sets modulo 256";
    SetMod65536 "set-mod-65536" "takes sets modulo 65,536";
    SetMod32 "set-mod-32-bits" "takes sets modulo 2 to the 32nd";
    SetCutTo255 "set-cut-to-255" "takes a set above 255 as 255";
    SevenGroups "seven-groups" "a set has no mark of group 7";
    SetsAsLacks "sets-as-lacks" "a set has the marks whose bits are 0";
    AdmitIgnoresSet "admit-ignores-set" "an admitted subject has all marks";
    RegisterIgnoresSet "register-ignores-set" "a registered file has all marks";
    AdmitWithoutSet "admit-without-set" "an admitted subject has no mark";
    RegisterWithoutSet "register-without-set" "a registered file has no mark";
    // Labels: the freeze.
    FreezeFullSets "freeze-full-sets" "a file that lacks a mark is not frozen";
    FreezeNotEmptySets "freeze-not-empty-sets" "a file without any mark is not frozen";
    FreezeBySet "freeze-by-set" "the file's set is held against the freeze, not its level";
    FreezeNotForFullSets "freeze-not-for-full-sets" "who has all marks opens a frozen file for writing";
    // Other conditions.
    SubjectMod32 "subject-mod-32-bits" "takes subjects modulo 2 to the 32nd";
    PlaceMod32 "place-mod-32-bits" "takes places modulo 2 to the 32nd";
    LevelMod32 "level-mod-32-bits" "takes levels modulo 2 to the 32nd";
    FreezeMod32 "freeze-mod-32-bits" "takes a freeze modulo 2 to the 32nd";
    ObjectMod32 "object-mod-32-bits" "takes objects modulo 2 to the 32nd";
    ObjectMod63 "object-mod-63-bits" "takes objects modulo 2 to the 63rd";
    Mod256 "mod-256" "takes a call's numbers modulo 256";
    Mod65536 "mod-65536" "takes a call's numbers modulo 65,536";
    Mod31Bits "mod-31-bits" "takes a call's numbers modulo 2 to the 31st";
    RetireHeld "retire-held" "a file with an open handle may be retired";
    RetirePipe "retire-pipe" "a pipe may be retired";
    ExecPipe "exec-pipe" "a pipe may be run";
    PipeNotOpened "pipe-not-opened" "opening a pipe by its number is refused with 5";
    SameEnds "same-ends" "a pipe may have both ends at one place";
    TakenPlace "taken-place" "an open may take a place that is in use";
    ReadOnWriting "read-on-writing" "a read on a writing handle is not refused";
    WriteOnReading "write-on-reading" "a write on a reading handle is not refused";
    // Which refusal is said.
    LargestFirst "largest-first" "gives the largest number that holds";
    Order23 "order-2-3" "says 3 before 2";
    Order24 "order-2-4" "says 4 before 2";
    Order25 "order-2-5" "says 5 before 2";
    Order27 "order-2-7" "says 7 before 2";
    Order36 "order-3-6" "says 6 before 3";
    Order37 "order-3-7" "says 7 before 3";
    Order47 "order-4-7" "says 7 before 4";
    Order57 "order-5-7" "says 7 before 5";
    Order59 "order-5-9" "says 9 before 5";
    Order79 "order-7-9" "says 9 before 7";
    Order39 "order-3-9" "says 9 before 3";
    Order216 "order-2-16" "says 16 before 2";
    Order163 "order-16-3" "says 3 before 16";
    Order167 "order-16-7" "says 7 before 16";
    SixteenLast "16-last" "says 16 by its number, after all others";
    Order217 "order-2-17" "says 17 before 2";
    Order1617 "order-16-17" "says 17 before 16";
    Order317 "order-3-17" "says 17 before 3";
    // No call both makes an object and names one: whether 17 comes before 4 and 5 cannot be told.
    Order176 "order-17-6" "says 6 before 17";
    Order177 "order-17-7" "says 7 before 17";
    Order179 "order-17-9" "says 9 before 17";
    SeventeenLast "17-last" "says 17 by its number, after all others";
    Order215 "order-2-15" "says 15 before 2";
    Order715 "order-7-15" "says 15 before 7";
    Order159 "order-15-9" "says 9 before 15, as it was before request (j)";
    TwelveLast "12-last" "a left-over number is 12 only if 2 to 10 and 15 to 17 do not hold";
    FifteenBefore12 "15-before-12" "a left-over number is 12 only if 15 does not hold";
    SeventeenBefore12 "17-before-12" "a left-over number is 12 only if 17 does not hold";
    // Effects.
    LowerAtOpen "lower-at-open" "an open for reading lowers the subject at once";
    LowerPipeAtOpen "lower-pipe-at-open" "an open for writing lowers the pipe at once";
    ReaderKeepsLevel "reader-keeps-level" "a read does not lower the subject";
    ReadTakesLevel "read-takes-level" "a read raises the subject, too";
    PipeKeepsLevel "pipe-keeps-level" "a write from below does not lower the pipe";
    PipeTakesLevel "pipe-takes-level" "a write from above raises the pipe";
    ExecKeepsLevel "exec-keeps-level" "exec does not lower the subject";
    ExecTakesLevel "exec-takes-level" "exec raises the subject, too";
    ExecCloses "exec-closes" "exec closes the caller's handles";
    ForkNoHandles "fork-no-handles" "fork copies the level and not the handles";
    ForkReadingOnly "fork-reading-only" "fork copies reading handles only";
    ForkTopLevel "fork-top-level" "fork starts the child at level 15";
    PipeNeverEnds "pipe-never-ends" "a pipe stays when its last handle goes";
    PipeEndsWithWriter "pipe-ends-with-writer" "a pipe ends when its last writing handle goes";
    PipeEndsWithReader "pipe-ends-with-reader" "a pipe ends when its last reading handle goes";
    ExitKeepsPipes "exit-keeps-pipes" "exit does not end the pipes that it leaves without handles";
    ExitKeepsNumber "exit-keeps-number" "exit closes the handles, but the subject stays";
    RetireKeepsNumber "retire-keeps-number" "retire leaves the file";
    CreateAtZero "create-at-zero" "a created file starts at level 0";
    PipeAtFifteen "pipe-at-fifteen" "a new pipe starts at level 15";
    PipeEndsSwapped "pipe-ends-swapped" "the pipe's place r writes and w reads";
    RefusedOpenStays "refused-open-stays" "an open refused with 9 still places its handle";
    RefusedExecLowers "refused-exec-lowers" "an exec refused with 9 still lowers the subject";
    FreezeTakesSmaller "freeze-takes-smaller" "a freeze below 16 is the smaller of the new number and the old";
    FreezeNotReplaced "freeze-not-replaced" "a freeze that is set stays until it is lifted";
    FreezeNotLifted "freeze-not-lifted" "a freeze of 16 leaves the one before it";
    FreezeCloses "freeze-closes" "a freeze closes the writing handles on the files that it freezes";
    ExitLiftsFreeze "exit-lifts-freeze" "exit lifts the freeze";
    ExecLiftsFreeze "exec-lifts-freeze" "exec lifts the freeze";
    RefusedFreezeLifts "refused-freeze-lifts" "a refused freeze lifts the one before it";
    RefusedFreezeSets "refused-freeze-sets" "a refused freeze sets one of 15";
    FifteenLifts "15-lifts" "an open refused with 15 lifts the freeze";
    FifteenStays "15-stays" "an open refused with 15 still places its handle";
    MarkIgnored "mark-ignored" "a mark is answered and not kept";
    MarkToggles "mark-toggles" "marking a marked handle takes the mark off";
    MarkOfSubject "mark-of-subject" "a mark marks every handle of the subject";
    MarkOfObject "mark-of-object" "a mark marks every handle on the object";
    MarkLowers "mark-lowers" "a mark lowers the subject to the object's level";
    MarkCloses "mark-closes" "a mark closes the handle at once";
    MarkStaysAtClose "mark-stays-at-close" "the handle opened after a close has the closed one's mark";
    MarkStaysAtExec "mark-stays-at-exec" "the handle opened where exec closed one has its mark";
    MarkStaysAtExit "mark-stays-at-exit" "the places of a subject that exits keep their marks";
    UseUnmarks "use-unmarks" "a read or write takes its handle's mark off";
    ForkDropsMarks "fork-drops-marks" "fork copies the handles without their marks";
    ForkMarksAll "fork-marks-all" "fork marks every handle of the child";
    ForkMovesMarks "fork-moves-marks" "fork takes the marks off the handles of the caller";
    ForkLeavesMarked "fork-leaves-marked" "fork does not copy marked handles";
    ExecKeepsMarked "exec-keeps-marked" "an allowed exec keeps the marked handles";
    ExecUnmarks "exec-unmarks" "an allowed exec takes the marks off and closes none";
    ExecKeepsReading "exec-keeps-reading" "an allowed exec closes marked handles for writing only";
    ExecClosesOthers "exec-closes-others" "exec closes the marked handles of all subjects";
    ExecClosesRest "exec-closes-rest" "where one handle is marked, exec closes all of the caller's";
    ExecKeepsPipes "exec-keeps-pipes" "a pipe stays when exec closes its last handle";
    ExecEndsPipes "exec-ends-pipes" "a pipe ends when exec closes a handle on it, the last or not";
    RefusedExecCloses "refused-exec-closes" "an exec refused with 9 still closes the marked handles";
    UnfitExecCloses "unfit-exec-closes" "an exec refused with 4 or 5 still closes the marked handles";
    RefusedExecUnmarks "refused-exec-unmarks" "an exec refused with 9 takes the marks off";
    // That the reads after a write lower a mapper cannot be told from empty tables: it fell to the file's level when it
    // mapped it (RULES T38; see ONLY_BY_TABLES). Nor can their order be told, nor whether a mapping is marked (RULES
    // C10).
    MapKeepsLevel "map-keeps-level" "a map does not lower the subject";
    MapTakesLevel "map-takes-level" "a map raises the subject, too";
    MapPlacesNone "map-places-none" "a map places no handle";
    MapAsOpen "map-as-open" "a map places a reading handle that is no mapping";
    OpenAsMap "open-as-map" "an open for reading places a mapping";
    OpenOfMappedMaps "open-of-mapped-maps" "an open for reading of a file that the subject has mapped places a mapping";
    RefusedMapStays "refused-map-stays" "a map refused with 9 still places its handle";
    RefusedMapLowers "refused-map-lowers" "a map refused with 9 still lowers the subject";
    ReadUnmaps "read-unmaps" "a read makes a plain handle of a mapping";
    WriteUnmaps "write-unmaps" "a write to a file closes the mappings of it";
    WriteLowersWriter "write-lowers-writer" "a write to a mapped file lowers the writer to the file's level";
    WriteLowersReaders "write-lowers-readers" "a write to a file lowers all who have it open for reading";
    CloseUnmapsFile "close-unmaps-file" "a close of a mapping closes all of the subject's mappings of that file";
    CloseUnmapsAll "close-unmaps-all" "a close of a mapping closes the mappings of that file by all subjects";
    MapStaysAtClose "map-stays-at-close" "what is opened for reading after a mapping's close is a mapping, too";
    MapStaysAtExec "map-stays-at-exec" "what is opened for reading where exec closed a mapping is one, too";
    MapStaysAtExit "map-stays-at-exit" "what is opened for reading where an exited subject had a mapping is one";
    ForkUnmaps "fork-unmaps" "fork copies a mapping as a plain reading handle";
    ForkLeavesMapped "fork-leaves-mapped" "fork does not copy mappings";
    ForkMovesMapping "fork-moves-mapping" "fork makes plain handles of the caller's mappings";
    ForkMapsAll "fork-maps-all" "fork makes mappings of all reading handles of the child";
    ExecKeepsMapped "exec-keeps-mapped" "an allowed exec keeps the mappings";
    ExecUnmaps "exec-unmaps" "an allowed exec makes plain handles of the mappings and closes none";
    ExecClosesOneMapping "exec-closes-one-mapping" "an allowed exec closes the first mapping only";
    ExecClosesMappedFile "exec-closes-mapped-file" "exec closes all of the caller's handles on a file that it has mapped";
    ExecClosesOthersMappings "exec-closes-others-mappings" "exec closes the mappings of all subjects";
    RefusedExecClosesMapped "refused-exec-closes-mapped" "an exec refused with 9 still closes the mappings";
    UnfitExecClosesMapped "unfit-exec-closes-mapped" "an exec refused with 4 or 5 still closes the mappings";
    ConnectAtCaller "connect-at-caller" "both pipes of a connect start at the level of s";
    ConnectAtPartner "connect-at-partner" "both pipes of a connect start at the level of t";
    ConnectLevelsSwapped "connect-levels-swapped" "each pipe of a connect starts at its reader's level";
    ConnectAtLower "connect-at-lower" "both pipes of a connect start at the lower of the two levels";
    ConnectAtFifteen "connect-at-fifteen" "the pipes of a connect start at level 15";
    ConnectPlacesSwapped "connect-places-swapped" "a connect reads at q and writes at p";
    PartnerPlacesSwapped "partner-places-swapped" "t reads at q and writes at p, unlike s";
    ConnectPipesSwapped "connect-pipes-swapped" "pipe a goes from t to s, and pipe b from s to t";
    ConnectOneWay "connect-one-way" "a connect makes the pipe from s to t only";
    ConnectMakesFiles "connect-makes-files" "a connect makes files";
    ConnectMarks "connect-marks" "a connect marks its handles";
    ConnectLowers "connect-lowers" "a connect lowers both subjects to the lower of the two levels";
    RefusedConnectLeavesOne "refused-connect-leaves-one" "a connect refused with 9 leaves its first pipe";
    RefusedConnectLeavesBoth "refused-connect-leaves-both" "a connect refused with 9 leaves both pipes";
    SevenLeavesPipe "7-leaves-pipe" "a connect refused with 7 leaves its first pipe, without handles";
    ThreeLeavesPipe "3-leaves-pipe" "a connect whose second number is unfit leaves its first pipe";
    SeventeenLeavesPipe "17-leaves-pipe" "a connect refused with 17 leaves its first pipe where there is space for it";
    ChannelNeverEnds "channel-never-ends" "a pipe of a connect stays when its last handle goes";
    ChannelEndsTogether "channel-ends-together" "when one pipe of a connect ends, so does the other";
    ChannelClosesBoth "channel-closes-both" "a close of one end of a connect closes the subject's other end";
    ThreadOwnGroup "thread-own-group" "a thread is in a group of its own";
    ThreadJoinsMakerOnly "thread-joins-maker-only" "a thread has its maker as a mate, and none of its maker's mates";
    OneGroupForAll "one-group-for-all" "a thread makes one group of all groups";
    ThreadCopiesHandles "thread-copies-handles" "a thread gets the handles of its maker, too";
    ThreadMovesHandles "thread-moves-handles" "a thread takes the handles of its maker along";
    ThreadTopLevel "thread-top-level" "a thread starts at level 15";
    ThreadAtZero "thread-at-zero" "a thread starts at level 0";
    FallsAlone "falls-alone" "each member has a level of its own: what lowers one lowers no other";
    ReaderFallsAlone "reader-falls-alone" "a read lowers the caller and none of its mates";
    MapperFallsAlone "mapper-falls-alone" "a map lowers the caller and none of its mates";
    HighestKeepsLevel "highest-keeps-level" "the mate with the highest number does not fall with the others";
    OneMateFalls "one-mate-falls" "of the mates only the one with the lowest number falls";
    HigherMatesFall "higher-mates-fall" "only mates with higher numbers fall";
    FirstKeepsLevel "first-keeps-level" "the first of a group does not fall with its threads";
    FirstLowersAll "first-lowers-all" "only what lowers the first of a group lowers the others";
    HoldersFall "holders-fall" "only mates that have handles fall";
    MatesTakeLevel "mates-take-level" "a read or a map raises the mates, too";
    ForkJoinsGroup "fork-joins-group" "a fork's child is in the group of its parent";
    ForkLeavesGroup "fork-leaves-group" "a fork puts its caller into a group of its own";
    ForkCopiesMates "fork-copies-mates" "fork copies the handles of the mates, too";
    ExecKeepsMates "exec-keeps-mates" "an allowed exec ends nobody";
    ExecKeepsOneMate "exec-keeps-one-mate" "an allowed exec keeps the mate with the lowest number";
    ExecKeepsFirst "exec-keeps-first" "an allowed exec keeps the first of the group";
    ExecKeepsHolders "exec-keeps-holders" "an allowed exec keeps the mates that have handles";
    ExecEqualKeepsMates "exec-equal-keeps-mates" "an exec that lowers nothing ends nobody";
    ExecByFirstEnds "exec-by-first-ends" "only an exec by the first of a group ends the others";
    ExecEmptiesMates "exec-empties-mates" "an allowed exec closes the handles of the mates, but they stay";
    ExecKeepsMatesPipes "exec-keeps-mates-pipes" "a pipe stays when exec ends the mate that has its last handle";
    ExecEndsMatesPipes "exec-ends-mates-pipes" "a pipe ends with a mate that has a handle on it, the last or not";
    ExecEndsAllGroups "exec-ends-all-groups" "an allowed exec ends the members of all groups";
    RefusedExecEndsMates "refused-exec-ends-mates" "an exec refused with 9 still ends the mates";
    UnfitExecEndsMates "unfit-exec-ends-mates" "an exec refused with 4 or 5 still ends the mates";
    RefusedExecClosesMates "refused-exec-closes-mates" "an exec refused with 9 still closes the handles of the mates";
    RefusedExecSplits "refused-exec-splits" "an exec refused with 9 puts its caller into a group of its own";
    ExitEndsGroup "exit-ends-group" "the exit of a member ends the others";
    FirstExitEndsGroup "first-exit-ends-group" "the exit of the first of a group ends the others";
    LowestExitEndsGroup "lowest-exit-ends-group" "the exit of the lowest number of a group ends the others";
    FirstExitLevel0 "first-exit-level-0" "the exit of the first of a group leaves the others at level 0";
    FirstExitSplits "first-exit-splits" "the exit of the first of a group leaves each other in a group of its own";
    LowestExitSplits "lowest-exit-splits" "the exit of the lowest number leaves each other in a group of its own";
    ExitClosesMates "exit-closes-mates" "the exit of a member closes the handles of the others";
    AdmitRejoins "admit-rejoins" "who is admitted with the number of a member that is gone is in its group";
    ForkRejoins "fork-rejoins" "who is forked with the number of a member that is gone is in its group";
    ThreadRejoins "thread-rejoins" "a thread with the number of a member that is gone brings its old group along";
    // Labels: what a fall leaves. That the marks lost are as many as the marks before less those after cannot be told from
    // their being counted one by one: a fall adds none.
    FallJoinsSets "fall-joins-sets" "a fall takes the marks of both sets";
    FallKeepsSet "fall-keeps-set" "a fall takes the smaller level and no mark away";
    FallTakesSet "fall-takes-set" "a fall takes the other set whole";
    FallTakesSmallerSet "fall-takes-smaller-set" "a fall takes the smaller set, as numbers";
    FallTakesOthers "fall-takes-others" "a fall takes the common marks away and leaves the others";
    FallOnlyComparable "fall-only-comparable" "nothing falls to a label that it is not at least";
    FallTakesWhole "fall-takes-whole" "a fall takes the other label whole where that is not at least the own one";
    MarksFallWithLevel "marks-fall-with-level" "marks are lost only where the level gets smaller";
    LevelFallsWithMarks "level-falls-with-marks" "the level gets smaller only where a mark is lost";
    FallLosesAll "fall-loses-all" "a fall takes all marks away";
    FallKeepsGroup0 "fall-keeps-group-0" "the mark of group 0 is never lost";
    FallKeepsGroup7 "fall-keeps-group-7" "the mark of group 7 is never lost";
    ReaderKeepsSet "reader-keeps-set" "a read takes no mark away";
    PipeKeepsSet "pipe-keeps-set" "a write takes no mark from a pipe";
    ExecKeepsSet "exec-keeps-set" "exec takes no mark away";
    MapKeepsSet "map-keeps-set" "a map takes no mark away";
    MatesKeepSets "mates-keep-sets" "the marks that a member loses its mates keep";
    OpenTakesMarks "open-takes-marks" "an open for reading takes marks at once";
    // Labels: what new things start with.
    CreateFullSet "create-full-set" "a created file has all marks";
    CreateNoSet "create-no-set" "a created file has no mark";
    PipeFullSet "pipe-full-set" "a new pipe has all marks";
    PipeNoSet "pipe-no-set" "a new pipe has no mark";
    ForkFullSet "fork-full-set" "a fork's child has all marks";
    ForkNoSet "fork-no-set" "a fork's child has no mark";
    ThreadFullSet "thread-full-set" "a thread starts with all marks";
    ThreadNoSet "thread-no-set" "a thread starts without any mark";
    ConnectFullSets "connect-full-sets" "the pipes of a connect have all marks";
    ConnectNoSets "connect-no-sets" "the pipes of a connect have no mark";
    ConnectSetsSwapped "connect-sets-swapped" "each pipe of a connect has its reader's set";
    ConnectSetOfCaller "connect-set-of-caller" "both pipes of a connect have the set of s";
    ConnectCommonSet "connect-common-set" "both pipes of a connect have the marks common to s and t";
    // Only tables that no calls made tell these.
    RereadKeepsSets "reread-keeps-sets" "a write to a mapped file takes no mark from its mappers";
    RereadMarksUnsaid "reread-marks-unsaid" "a write that takes marks alone from mappers is said as allowed";
    RereadLostOfMapper "reread-lost-of-mapper" "a write to a mapped file gives the marks that a mapper lost";
    MateLostSaid "mate-lost-said" "a read or a map gives the most marks that a member lost";
    FileFallsInSet "file-falls-in-set" "a write takes marks from a file, too";
    ThreadCommonSet "thread-common-set" "a thread starts with the marks common to its group";
    RereadLowersNobody "reread-lowers-nobody" "a write to a mapped file lowers nobody";
    RereadLowersMappers "reread-lowers-mappers" "a write to a mapped file lowers its mappers and none of their mates";
    RereadLowersLowest "reread-lowers-lowest" "a write to a mapped file lowers of each group the lowest of its mappers";
    RereadOfMateUnsaid "reread-of-mate-unsaid" "a write that lowers mates of mappers alone is said as allowed";
    FallEvens "fall-evens" "a read or a map brings all members to the level of its caller";
    MateFallUnsaid "mate-fall-unsaid" "a read or a map that lowers mates alone is said as allowed";
    ReadAnswersLowest "read-answers-lowest" "a read or a map answers with the lowest level of the group";
    ThreadAtLowest "thread-at-lowest" "a thread starts at the lowest level of its group";
    ThreadEvens "thread-evens" "a thread brings all members to the level of its maker";
    OldMonitor "old-monitor" "hands the old monitor back";
    // Answers.
    OpenAnswersSubject "open-answers-subject" "an open answers with the subject's level";
    ReadAnswersObject "read-answers-object" "a read answers with the object's level";
    WriteAnswersSubject "write-answers-subject" "a write answers with the subject's level";
    ExecAnswersObject "exec-answers-object" "exec answers with the file's level";
    ExitAnswersZero "exit-answers-zero" "exit answers with level 0";
    FreezeAnswersOld "freeze-answers-old" "a freeze answers with the number before it";
    Freeze16Answers15 "freeze-16-answers-15" "a freeze of 16 answers with 15";
    FreezeAsLowered "freeze-as-lowered" "a freeze below the one before it is said as lowered";
    MarkAnswersObject "mark-answers-object" "a mark answers with the object's level";
    MarkAnswersPlace "mark-answers-place" "a mark answers with the place";
    ClosingAsLowered "closing-as-lowered" "an exec that closes a handle is said as lowered";
    MapAnswersFile "map-answers-file" "a map answers with the file's level";
    MapAnswersOld "map-answers-old" "a map answers with the level that the subject had before";
    MapLoweredAsAllowed "map-lowered-as-allowed" "a map that lowers is said as allowed";
    MapEqualAsLowered "map-equal-as-lowered" "a map at the same level is said as lowered";
    RereadAsLowered "reread-as-lowered" "a write to a mapped file is said as lowered";
    RereadAnswersMapper "reread-answers-mapper" "a write to a mapped file answers with the level of its last mapper";
    ConnectAnswersPartner "connect-answers-partner" "a connect answers with the level of t";
    ConnectAnswersLower "connect-answers-lower" "a connect answers with the lower of the two levels";
    ConnectAsLowered "connect-as-lowered" "a connect to a lower subject is said as lowered";
    ThreadAnswersZero "thread-answers-zero" "a thread answers with level 0";
    ThreadAnswersNumber "thread-answers-number" "a thread answers with its number";
    LoweredAsAllowed "lowered-as-allowed" "lowered is said as allowed";
    PipeLoweredAsAllowed "pipe-lowered-as-allowed" "a lowered pipe is said as allowed";
    EqualAsLowered "equal-as-lowered" "a read at the same level is said as lowered";
    // Labels: what is said of a fall, and the number of marks lost.
    MarksAloneUnsaid "marks-alone-unsaid" "a fall of marks alone is said as allowed";
    ReadMarksUnsaid "read-marks-unsaid" "a read that takes marks alone is said as allowed";
    PipeMarksUnsaid "pipe-marks-unsaid" "a write that takes marks alone from a pipe is said as allowed";
    ExecMarksUnsaid "exec-marks-unsaid" "an exec that takes marks alone is said as allowed";
    MapMarksUnsaid "map-marks-unsaid" "a map that takes marks alone is said as allowed";
    LevelAloneUnsaid "level-alone-unsaid" "a fall of the level alone is said as allowed";
    LostOfOther "lost-of-other" "gives the marks that the other of the two things lost";
    LostAtWriteOfSubject "lost-at-write-of-subject" "a write gives the marks that s has and the pipe has not";
    LostReversed "lost-reversed" "gives the marks that the other thing has and the shown one has not";
    LostOfBoth "lost-of-both" "gives the marks in which the two sets differ";
    LostOfAll "lost-of-all" "gives the marks that all things lost together";
    LostAsLevels "lost-as-levels" "gives the difference of the levels";
    LostAsSet "lost-as-set" "gives the set of the marks lost, not their number";
    LostAsOne "lost-as-one" "gives 1 where any mark was lost";
    LostAsKept "lost-as-kept" "gives the number of marks kept";
    LostAsBefore "lost-as-before" "gives the number of marks before the fall";
    LostAsLacking "lost-as-lacking" "gives the number of marks that are lacking after the fall";
    LostWithLevel "lost-with-level" "counts a smaller level as one mark more";
    LostOfSevenGroups "lost-of-seven-groups" "does not count the mark of group 7";
    LostFromGroup1 "lost-from-group-1" "does not count the mark of group 0";
    LabelInAnswer "label-in-answer" "an admit and a register answer with 256 times the level and the set";
    // Tally.
    PipeCountedOnce "pipe-counted-once" "a new pipe counts one handle made";
    ForkNotCounted "fork-not-counted" "fork counts nothing";
    ForkCountedOnce "fork-counted-once" "fork counts one handle made";
    ExitCountedOnce "exit-counted-once" "exit counts one handle gone";
    CloseNotCounted "close-not-counted" "close counts nothing";
    RefusedCounted "refused-counted" "a refused open counts a handle made";
    RetireCounted "retire-counted" "retire counts a handle gone";
    FreezeCounted "freeze-counted" "a freeze counts a handle made";
    MarkCounted "mark-counted" "a mark counts a handle gone";
    ExecNotCounted "exec-not-counted" "exec does not count the handles that it closes";
    ExecCountedOnce "exec-counted-once" "exec counts one handle gone, however many it closes";
    ExecCountsAll "exec-counts-all" "exec counts all of the caller's handles gone";
    RefusedExecCounted "refused-exec-counted" "an exec refused with 9 counts the marked handles gone";
    MapNotCounted "map-not-counted" "a map counts nothing";
    MapCountedTwice "map-counted-twice" "a map counts two handles made";
    RefusedMapCounted "refused-map-counted" "a refused map counts a handle made";
    RereadCounted "reread-counted" "a write to a mapped file counts a handle made for each mapper";
    CloseMapNotCounted "close-map-not-counted" "a close of a mapping counts nothing";
    ExitMapsNotCounted "exit-maps-not-counted" "exit does not count mappings";
    ExecMapsNotCounted "exec-maps-not-counted" "exec closes the mappings without counting them";
    ExecCountsFiles "exec-counts-files" "exec counts one handle gone for each file that it had mapped";
    RefusedExecCountsMaps "refused-exec-counts-maps" "an exec refused with 9 counts the mappings gone";
    ConnectNotCounted "connect-not-counted" "a connect counts nothing";
    ConnectCountedTwo "connect-counted-two" "a connect counts two handles made";
    ConnectCountedThree "connect-counted-three" "a connect counts three handles made";
    RefusedConnectCounted "refused-connect-counted" "a refused connect counts four handles made";
    ThreadCounted "thread-counted" "a thread counts as many handles made as its maker has";
    ExecMatesNotCounted "exec-mates-not-counted" "exec does not count the handles of the mates that it ends";
    ExecMatesCountedOnce "exec-mates-counted-once" "exec counts one handle gone for each mate that it ends";
    ExecCountsMatesMarked "exec-counts-mates-marked" "exec counts of the mates' handles only the marked ones and mappings";
    ExecCountsMatesUnmarked "exec-counts-mates-unmarked" "exec does not count the marked handles and mappings of the mates";
    RefusedExecCountsMates "refused-exec-counts-mates" "an exec refused with 9 counts the handles of the mates gone";
    ExitCountsGroup "exit-counts-group" "the exit of a member counts the handles of the others gone";
    OpenAsMade "open-as-made" "the end line gives the handles made as those open";
    // Codes.
    Code14Unknown "code-14-unknown" "does not know code 14";
    Code14AsOpen "code-14-as-open" "takes code 14 for an open for reading";
    Code14AsMark "code-14-as-mark" "takes code 14 for a mark";
    Code15AsFreeze "code-15-as-freeze" "takes code 15 for a freeze";
    Code15Unknown "code-15-unknown" "does not know code 15";
    Code16Unknown "code-16-unknown" "does not know code 16";
    Code17Unknown "code-17-unknown" "does not know code 17";
    Code17AsPipe "code-17-as-pipe" "takes code 17 for a pipe";
    Code18AsConnect "code-18-as-connect" "takes code 18 for a connect";
    Code18AsFork "code-18-as-fork" "takes code 18 for a fork";
    Code18Unknown "code-18-unknown" "does not know code 18, as before request (i)";
    Code19AsThread "code-19-as-thread" "takes code 19 for a thread";
    CodeMod32 "code-mod-32-bits" "takes codes modulo 2 to the 32nd";
    // Numbers and records.
    PaddedAccepted "padded-accepted" "a number longer than it need be is taken";
    AboveWrapped "above-wrapped" "a number above 18446744073709551615 is wrapped";
    PaddedTen "padded-ten" "a number of ten bytes is taken where the last is 0";
    TenthByte2 "tenth-byte-2" "a number of ten bytes is taken where the last is 2";
    ElevenBytes "eleven-bytes" "a number of eleven bytes is taken";
    NineBytesOnly "nine-bytes-only" "a number of ten bytes is malformed";
    FiveBytesOnly "five-bytes-only" "a number above 4294967295 is malformed";
    LengthMod32 "length-mod-32-bits" "takes a record's length modulo 2 to the 32nd";
    ReadsPastBody "reads-past-body" "a number may end behind its record's body";
    MapTwoNumbers "map-two-numbers" "a record of a map has two numbers";
    MapFourNumbers "map-four-numbers" "a record of a map has four numbers";
    MapFileFirst "map-file-first" "a map has the file before the subject";
    MapPlaceFirst "map-place-first" "a map has the place before the file";
    MarkOneNumber "mark-one-number" "a record of a mark has one number";
    MarkThreeNumbers "mark-three-numbers" "a record of a mark has three numbers";
    MarkSwapped "mark-swapped" "a mark has the place before the subject";
    FreezeTwoNumbers "freeze-two-numbers" "a record of a freeze has two numbers";
    ConnectFourNumbers "connect-four-numbers" "a record of a connect has four numbers";
    ConnectFiveNumbers "connect-five-numbers" "a record of a connect has five numbers";
    ConnectPlacesLost "connect-places-lost" "a call has its first four numbers only, and 0 for the others";
    ConnectPartnerFirst "connect-partner-first" "a connect has t before s";
    ConnectBackFirst "connect-back-first" "a connect has b before a";
    ConnectPipesBetween "connect-pipes-between" "a connect has a before t";
    ThreadOneNumber "thread-one-number" "a record of a thread has one number";
    ThreadThreeNumbers "thread-three-numbers" "a record of a thread has three numbers";
    ThreadSwapped "thread-swapped" "a thread has c before s";
    BeforeRequestL "before-request-l" "has no sets and no fifth field, as before request (l)";
    AdmitTwoNumbers "admit-two-numbers" "a record of an admit has two numbers";
    RegisterTwoNumbers "register-two-numbers" "a record of a register has two numbers";
    AdmitFourNumbers "admit-four-numbers" "a record of an admit has four numbers";
    RegisterFourNumbers "register-four-numbers" "a record of a register has four numbers";
    SetBeforeLevel "set-before-level" "an admit and a register have the set before the level";
    MissingSetAs255 "missing-set-as-255" "a missing set is taken as 255";
    MissingSetAs0 "missing-set-as-0" "a missing set is taken as 0";
    MissingIsZero "missing-is-zero" "a missing number is taken as 0";
    LeftOverIgnored "left-over-ignored" "what is left over in a record is ignored";
    UnknownRestRead "unknown-rest-read" "a malformed number behind an unknown code is 12";
    PastEndClipped "past-end-clipped" "a length past the end takes what is left";
    ElevenGoesOn "11-goes-on" "goes on at the next byte after 11";
    TwelveStops "12-stops" "stops after 12";
    FirstRecordOnly "first-record-only" "stops after the first record";
    Bytes65536Refused "65536-refused" "a journal of 65,536 bytes is refused";
    Bytes65537Accepted "65537-accepted" "a journal of 65,537 bytes is run";
    // Reply lines.
    PositionFromZero "position-from-0" "counts positions from 0";
    RefusedNotCounted "refused-not-counted" "refused records do not count for the position";
    TwelveNotCounted "12-not-counted" "records with 12 do not count for the position";
    CodeZeroAt12 "code-0-at-12" "writes the code as 0 with 12";
    UnknownCodeAsZero "unknown-code-as-0" "writes an unknown code as 0";
    CodeShownMod32 "code-shown-mod-32-bits" "writes a code modulo 2 to the 32nd";
    FourteenAtZero "14-at-0" "writes 14 with position 0";
    NoFifthField "no-fifth-field" "writes no fifth field";
    FifthFieldAlways "fifth-field-always" "writes a fifth field in every line";
    FifthFieldUnlessRefused "fifth-field-unless-refused" "writes a fifth field behind A, too";
    NoFifthFieldAt0 "no-fifth-field-at-0" "writes no fifth field where no mark was lost";
    LostBeforeLevel "lost-before-level" "writes the marks lost before the level";
}

/// These answer every journal as the rules do: only tables that no calls made tell them apart. From empty tables the
/// members of a group have one label, all of them fell when one mapped a file, and who writes to a file has its marks
/// (RULES T38, T48, F8).
pub const ONLY_BY_TABLES: &[&str] = &[
    "reread-lowers-nobody",
    "reread-lowers-mappers",
    "reread-lowers-lowest",
    "reread-of-mate-unsaid",
    "fall-evens",
    "mate-fall-unsaid",
    "read-answers-lowest",
    "thread-at-lowest",
    "thread-evens",
    "reread-keeps-sets",
    "reread-marks-unsaid",
    "reread-lost-of-mapper",
    "mate-lost-said",
    "thread-common-set",
    "file-falls-in-set",
];

/// Which rules hold: those of docs/RULES.md, or one variant of them.
#[derive(Clone, Copy, Debug, Default, PartialEq, Eq)]
pub struct Rules {
    variant: Option<Variant>,
}

impl From<Variant> for Rules {
    fn from(variant: Variant) -> Rules {
        Rules { variant: Some(variant) }
    }
}

impl Rules {
    /// The rules of the variant with this name.
    pub fn named(name: &str) -> Option<Rules> {
        let (variant, _, _) = ALL.iter().find(|(_, word, _)| *word == name)?;
        Some(Rules::from(*variant))
    }

    /// Whether these are the rules of docs/RULES.md.
    pub fn are_right(self) -> bool {
        self.variant.is_none()
    }

    /// Whether this variant is on.
    pub fn has(self, variant: Variant) -> bool {
        self.variant == Some(variant)
    }

    /// The limits of the tables.
    pub fn limits(self) -> Limits {
        let mut limits = LIMITS;
        match self.variant {
            Some(Variant::Level16Allowed) => limits.levels += 1,
            Some(Variant::Level15Refused) => limits.levels -= 1,
            Some(Variant::Place16Allowed) => limits.places += 1,
            Some(Variant::Place15Refused) => limits.places -= 1,
            Some(Variant::Subject32Allowed) => limits.subjects += 1,
            Some(Variant::Subject31Refused) => limits.subjects -= 1,
            Some(Variant::Live65Allowed) => limits.objects += 1,
            Some(Variant::Live64Refused) => limits.objects -= 1,
            Some(Variant::Set256Allowed) => limits.sets += 1,
            Some(Variant::Set255Refused) => limits.sets -= 1,
            _ => {}
        }
        limits
    }

    /// The code that a code is taken for.
    pub fn bend_code(self, code: u64) -> u64 {
        match (self.variant, code) {
            (Some(Variant::Code14Unknown), 14) => 0,
            (Some(Variant::Code14AsOpen), 14) => 5,
            (Some(Variant::Code14AsMark), 14) => 15,
            (Some(Variant::Code15AsFreeze), 15) => 16,
            (Some(Variant::Code15Unknown), 15) => 0,
            (Some(Variant::Code16Unknown), 16) => 0,
            (Some(Variant::Code17Unknown), 17) => 0,
            (Some(Variant::Code17AsPipe), 17) => 4,
            (Some(Variant::Code18AsConnect), 18) => 17,
            (Some(Variant::Code18AsFork), 18) => 9,
            (Some(Variant::Code18Unknown), 18) => 0,
            (Some(Variant::Code19AsThread), 19) => 18,
            (Some(Variant::CodeMod32), _) => code % (1 << 32),
            _ => code,
        }
    }

    /// How many numbers a record of this shape has.
    pub fn bend_count(self, shape: &Shape) -> usize {
        match self.variant {
            Some(Variant::MapTwoNumbers) if shape.code == 14 => 2,
            Some(Variant::MapFourNumbers) if shape.code == 14 => 4,
            Some(Variant::MarkOneNumber) if shape.code == 15 => 1,
            Some(Variant::MarkThreeNumbers) if shape.code == 15 => 3,
            Some(Variant::FreezeTwoNumbers) if shape.code == 16 => 2,
            Some(Variant::ConnectFourNumbers) if shape.code == 17 => 4,
            Some(Variant::ConnectFiveNumbers) if shape.code == 17 => 5,
            Some(Variant::ThreadOneNumber) if shape.code == 18 => 1,
            Some(Variant::ThreadThreeNumbers) if shape.code == 18 => 3,
            Some(variant) => labels::bend_count(variant, shape.code).unwrap_or(shape.numbers.len()),
            None => shape.numbers.len(),
        }
    }

    /// The number that stands for one that a record of this code does not have; none where it is missing.
    pub fn bend_missing(self, code: u64, index: usize) -> Option<u64> {
        match self.variant? {
            Variant::MissingIsZero => Some(0),
            variant => labels::missing_set(variant, code, index),
        }
    }

    /// The numbers that a call of this code is made with.
    pub fn bend_numbers(self, code: u64, numbers: Numbers) -> Numbers {
        let [a, b, c, d, e, f] = numbers;
        match self.variant {
            Some(Variant::MapFileFirst) if code == 14 => [b, a, c, d, e, f],
            Some(Variant::MapPlaceFirst) if code == 14 => [a, c, b, d, e, f],
            Some(Variant::MarkSwapped) if code == 15 => [b, a, c, d, e, f],
            Some(Variant::ConnectPlacesLost) if code == 17 => [a, b, c, d, 0, 0],
            Some(Variant::ConnectPartnerFirst) if code == 17 => [b, a, c, d, e, f],
            Some(Variant::ConnectBackFirst) if code == 17 => [a, b, d, c, e, f],
            Some(Variant::ConnectPipesBetween) if code == 17 => [a, c, b, d, e, f],
            Some(Variant::ThreadSwapped) if code == 18 => [b, a, c, d, e, f],
            Some(Variant::Mod256) => numbers.map(|number| number % 256),
            Some(Variant::Mod65536) => numbers.map(|number| number % 65_536),
            Some(Variant::Mod31Bits) => numbers.map(|number| number % (1 << 31)),
            Some(variant) => labels::bend_set(variant, code, stores::cut_numbers(variant, code, numbers)),
            None => numbers,
        }
    }

    /// The call with the object that is found where it names one that is not live, and with the subject that has the
    /// handle it names.
    pub fn bend_named(self, tables: &Tables, call: Call) -> Call {
        let Some(variant) = self.variant else {
            return call;
        };
        threads::bend_caller(variant, tables, stores::bend_named(variant, tables, call))
    }

    /// Whether a number of these groups is taken although it is longer than it need be.
    pub fn takes_padded(self, groups: &[u8]) -> bool {
        self.variant.is_some_and(|variant| stores::takes_padded(variant, groups))
    }

    /// Whether a number of these groups is taken although it is too large.
    pub fn wraps(self, groups: &[u8]) -> bool {
        self.variant.is_some_and(|variant| stores::wraps(variant, groups))
    }

    /// A good number, and how many bytes it takes; or why it is not taken all the same.
    pub fn bend_number(self, value: u64, groups: &[u8]) -> Result<(u64, usize), Malformed> {
        match self.variant.and_then(|variant| stores::bend_good(variant, value, groups)) {
            Some(malformed) => Err(malformed),
            None => Ok((value, groups.len())),
        }
    }

    /// The length that a record is taken to have.
    pub fn bend_length(self, length: u64) -> u64 {
        if self.has(Variant::LengthMod32) {
            length % (1 << 32)
        } else {
            length
        }
    }

    /// RULES R9: the flows that the test of a call adds.
    pub fn bend_sought(self, sought: &mut Vec<Flow>, call: Call) {
        let Call::Connect { s, .. } = call else {
            return;
        };
        match self.variant {
            Some(Variant::ConnectForwardOnly) => sought.retain(|flow| flow.from == Thing::Subject(s)),
            Some(Variant::ConnectBackOnly) => sought.retain(|flow| flow.to == Thing::Subject(s)),
            _ => {}
        }
    }

    /// RULES R110: the places that the test of a call leaves out.
    pub fn bend_left_out(self, tables: &Tables, call: Call, left_out: &mut Vec<(u64, u64)>) {
        if let Some(variant) = self.variant {
            marks::bend_left_out(variant, tables, call, left_out);
        }
    }

    /// RULES R110: the mates that the test of a call leaves out.
    pub fn bend_mates_left_out(self, tables: &Tables, call: Call, mates: &mut Vec<u64>) {
        if let Some(variant) = self.variant {
            threads::bend_mates_left_out(variant, tables, call, mates);
        }
    }

    /// RULES F22: whether data flows from one of these mates to the other.
    pub fn joins(self, pair: (u64, u64)) -> bool {
        self.variant.is_none_or(|variant| threads::joins(variant, pair))
    }

    /// The needs from which the passes start.
    pub fn bend_start(self, tables: &Tables, kept: &Needs, needs: &mut Needs) {
        match self.variant {
            Some(Variant::RunningMaximum) => needs.join_kept(tables, kept, |_, kept| kept),
            Some(variant) => labels::bend_start(variant, tables, kept, needs),
            None => {}
        }
    }

    /// The needs after the passes.
    pub fn bend_end(self, tables: &Tables, kept: &Needs, needs: &mut Needs) {
        if let Some(variant) = self.variant {
            labels::bend_end(variant, tables, kept, needs);
        }
    }

    /// RULES T52, F5: what a need becomes where a flow leads to a thing with the need `beyond`.
    pub fn bend_join(self, own: Label, beyond: Label) -> Label {
        match self.variant {
            Some(variant) => labels::join(variant, own, beyond),
            None => own.joined_with(beyond),
        }
    }

    /// Whether a need has changed in a pass.
    pub fn bend_changed(self, before: Label, after: Label) -> bool {
        match self.variant {
            Some(variant) => labels::has_changed(variant, before, after),
            None => before != after,
        }
    }

    /// RULES T51: what a label becomes at a fall to another, `is_mate` being whether it is that of a mate of the subject
    /// that the call speaks of.
    pub fn bend_fall(self, call: Call, is_mate: bool, own: Label, to: Label) -> Label {
        match self.variant {
            Some(variant) => labels::fall(variant, call, is_mate, own, to),
            None => own.fallen_to(to),
        }
    }

    /// RULES P8, P23: the value of a line, and the marks lost.
    pub fn bend_fields(self, answer: Answer, fields: [Option<u64>; 2]) -> [Option<u64>; 2] {
        match self.variant {
            Some(variant) => labels::bend_fields(variant, answer, fields),
            None => fields,
        }
    }

    /// Whether a flow hands on what its end reaches.
    pub fn carries(self, tables: &Tables, flow: Flow) -> bool {
        let is_kind = |thing, kind| match thing {
            Thing::Object(o) => tables.object(o).is_some_and(|object| object.kind == kind),
            Thing::Subject(_) => false,
        };
        match self.variant {
            Some(Variant::OneFlowFar) => is_kind(flow.to, Kind::File),
            Some(Variant::ReadingNoFlow) => matches!(flow.from, Thing::Subject(_)),
            Some(Variant::PipesNoFlow) => !is_kind(flow.to, Kind::Pipe),
            Some(Variant::FilesNoFlow) => !is_kind(flow.from, Kind::File),
            _ => true,
        }
    }

    /// Whether the passes over the handles end here although a need has changed.
    pub fn gives_up_after(self, pass: u32) -> bool {
        match self.variant {
            Some(Variant::FourPasses) => pass + 1 == 4,
            Some(Variant::ThirtyPasses) => pass + 1 == 30,
            _ => false,
        }
    }

    /// The conditions of RULES R2 to R10 and R15 to R17 for one call.
    pub fn bend_conditions(self, tables: &Tables, call: Call, needs: &Needs, conditions: &mut [Condition]) {
        let Some(variant) = self.variant else {
            return;
        };
        let offends_flow = conditions.contains(&(9, true));
        let mut set = |number: u32, holds: bool| {
            for condition in conditions.iter_mut().filter(|condition| condition.0 == number) {
                condition.1 = holds;
            }
        };
        if let Some(holds) = bend_frozen(variant, tables, call, offends_flow) {
            set(15, holds);
        }
        if let Some((number, holds)) = bend_marked(variant, tables, call) {
            set(number, holds);
        }
        if let Some((number, holds)) = bend_mapped(variant, tables, call, needs) {
            set(number, holds);
        }
        if let Some((number, holds)) = bend_connected(variant, tables, call, needs) {
            set(number, holds);
        }
        if let Some((number, holds)) = bend_stored(variant, tables, call) {
            set(number, holds);
        }
        if let Some((number, holds)) = bend_threaded(variant, tables, call) {
            set(number, holds);
        }
        if let Some((number, holds)) = bend_labelled(variant, tables, call, needs) {
            set(number, holds);
        }
        // A map is tested as an open is.
        let is_open = sought_flow(tables, call).is_some();
        let unmet_among = |tested: &dyn Fn(Thing) -> bool| needs.unmet(tables).any(tested);
        let kind_of = |thing| match thing {
            Thing::Object(o) => tables.object(o).map(|object| object.kind),
            Thing::Subject(_) => None,
        };
        let asker = call.asker().map(Thing::Subject);
        let named = call.named_object().map(Thing::Object);
        let label_of = |thing| label(tables, thing).unwrap_or(Label::LEAST);
        let object_label = |o| label_of(Thing::Object(o));
        match (variant, call) {
            (Variant::OpenerOnly, _) if is_open => {
                set(9, unmet_among(&|thing| Some(thing) == asker));
            }
            (Variant::ObjectOnly, _) if is_open => {
                set(9, unmet_among(&|thing| Some(thing) == named));
            }
            (Variant::EndsOnly, _) if is_open => {
                set(9, unmet_among(&|thing| Some(thing) == asker || Some(thing) == named));
            }
            (Variant::SubjectsOnly, _) if is_open => {
                set(9, unmet_among(&|thing| kind_of(thing).is_none()));
            }
            (Variant::PipesUntested, _) if is_open => {
                set(9, unmet_among(&|thing| kind_of(thing) != Some(Kind::Pipe)));
            }
            (Variant::FilesUntested, _) if is_open => {
                set(9, unmet_among(&|thing| kind_of(thing) != Some(Kind::File)));
            }
            (Variant::OpensUntested, _) if is_open => set(9, false),
            (Variant::OpensRefused, _) if is_open => set(9, true),
            (Variant::EqualRefused, Call::OpenWrite { s, o, .. }) if is_open => {
                let own = Thing::Subject(s);
                let equal = label_of(own) == needs.of(own) && object_label(o) != Label::LEAST;
                set(9, equal || unmet_among(&|_| true));
            }
            (Variant::ExecUntested, Call::Exec { .. }) => set(9, false),
            (Variant::ExecOwnFiles, Call::Exec { s, o }) => {
                let own = tables
                    .handles_of(s)
                    .filter(|(_, handle)| handle.direction == Direction::Writing && !handle.marked)
                    .filter_map(|(_, handle)| tables.object(handle.object))
                    .filter(|object| object.kind == Kind::File)
                    .any(|object| !object_label(o).is_at_least(object.label()));
                set(9, own);
            }
            (Variant::ExecByLevel, Call::Exec { s, o }) => {
                set(9, !object_label(o).is_at_least(label_of(Thing::Subject(s))));
            }
            (Variant::Freeze17Allowed, Call::Freeze { level: 17 }) => set(6, false),
            (Variant::Freeze16Refused, Call::Freeze { level: 16 }) => set(6, true),
            (Variant::RetireHeld, _) => set(10, false),
            (Variant::RetirePipe, Call::Retire { .. }) => set(5, false),
            (Variant::ExecPipe, Call::Exec { .. }) => set(5, false),
            (Variant::PipeNotOpened, Call::OpenRead { o, .. } | Call::OpenWrite { o, .. }) => {
                set(5, kind_of(Thing::Object(o)) == Some(Kind::Pipe));
            }
            (Variant::SameEnds, Call::Pipe { s, r, w, .. }) if r == w => {
                set(7, w >= tables.limits().places || tables.handle(s, w).is_some());
            }
            (Variant::TakenPlace, Call::OpenRead { p, .. } | Call::OpenWrite { p, .. }) => {
                set(7, p >= tables.limits().places);
            }
            (Variant::ReadOnWriting, Call::Read { .. }) => set(8, false),
            (Variant::WriteOnReading, Call::Write { .. }) => set(8, false),
            _ => {}
        }
    }

    /// The order in which the conditions are tested.
    pub fn bend_order(self, conditions: &mut [Condition]) {
        // Says the later of two numbers where the earlier would be said and both hold, and changes nothing else.
        let mut swap = |earlier: u32, later: u32| {
            let place = |number: u32| conditions.iter().position(|condition| condition.0 == number);
            let said = conditions.iter().position(|&(_, holds)| holds);
            if let (Some(first), Some(last)) = (place(earlier), place(later)) {
                if said == Some(first) && conditions[last].1 {
                    conditions[first..=last].rotate_right(1);
                }
            }
        };
        match self.variant {
            Some(Variant::LargestFirst) => conditions.sort_by_key(|condition| Reverse(condition.0)),
            Some(Variant::Order23) => swap(2, 3),
            Some(Variant::Order24) => swap(2, 4),
            Some(Variant::Order25) => swap(2, 5),
            Some(Variant::Order27) => swap(2, 7),
            Some(Variant::Order36) => swap(3, 6),
            Some(Variant::Order37) => swap(3, 7),
            Some(Variant::Order47) => swap(4, 7),
            Some(Variant::Order57) => swap(5, 7),
            Some(Variant::Order39) => swap(3, 9),
            Some(Variant::Order216) => swap(2, 16),
            Some(Variant::Order163) => swap(16, 3),
            Some(Variant::Order167) => swap(16, 7),
            Some(Variant::SixteenLast) => conditions.sort_by_key(|condition| condition.0 == 16),
            Some(Variant::Order59) => swap(5, 9),
            Some(Variant::Order79) => swap(7, 9),
            Some(Variant::Order215) => swap(2, 15),
            Some(Variant::Order715) => swap(7, 15),
            Some(Variant::Order159) => swap(15, 9),
            Some(Variant::Order217) => swap(2, 17),
            Some(Variant::Order1617) => swap(16, 17),
            Some(Variant::Order317) => swap(3, 17),
            Some(Variant::Order176) => swap(17, 6),
            Some(Variant::Order177) => swap(17, 7),
            Some(Variant::Order179) => swap(17, 9),
            Some(Variant::SeventeenLast) => conditions.sort_by_key(|condition| condition.0 == 17),
            _ => {}
        }
    }

    /// Whether this refusal of a call is said before the 12 of its record, which has something left over.
    pub fn says_before_12(self, number: u32) -> bool {
        match self.variant {
            Some(Variant::TwelveLast) => true,
            Some(Variant::FifteenBefore12) => number == 15,
            Some(Variant::SeventeenBefore12) => number == 17,
            _ => false,
        }
    }

    /// What a call has done and answered, `before` being the monitor before it.
    pub fn bend_outcome(self, before: &Monitor, after: &mut Monitor, call: Call, answer: Answer) -> Answer {
        let Some(variant) = self.variant else {
            return answer;
        };
        match answer {
            Answer::Refused(number) => bend_refused(variant, after, call, number),
            _ => bend_effect(variant, before, after, call),
        }
        let answer = bend_answer(variant, before, call, answer);
        let answer = bend_fall_answer(variant, before, after, call, answer);
        let answer = bend_thread_answer(variant, before, after, call, answer);
        let answer = bend_lost(variant, before, after, call, answer);
        bend_space(variant, before, after, call, answer)
    }

    /// What a body with an unknown code holds.
    pub fn bend_unknown_code(self, code: u64, rest: &[u8]) -> Body {
        if self.has(Variant::UnknownRestRead) {
            let mut taken = 0;
            while taken < rest.len() {
                match numbers::read(&rest[taken..], self) {
                    Ok((_, bytes)) => taken += bytes,
                    Err(malformed) => {
                        let fault = BodyFault::Number(0, malformed);
                        return Body::Bad { code, fault };
                    }
                }
            }
        }
        Body::UnknownCode { code }
    }

    /// The length above which a journal is refused with 14.
    pub fn longest_journal(self) -> usize {
        match self.variant {
            Some(Variant::Bytes65536Refused) => LONGEST_JOURNAL - 1,
            Some(Variant::Bytes65537Accepted) => LONGEST_JOURNAL + 1,
            _ => LONGEST_JOURNAL,
        }
    }

    /// Whether the run stops although there may be more to read.
    pub fn stops_after(self, step: &Step) -> bool {
        match self.variant {
            Some(Variant::TwelveStops) => step.answer == Answer::Refused(12),
            Some(Variant::FirstRecordOnly) => true,
            _ => false,
        }
    }

    /// What a reply says, and the position from which the next record counts on.
    pub fn bend_step(self, mut step: Step, position: &mut u64) -> Step {
        let refused = matches!(step.answer, Answer::Refused(_));
        let twelve = step.answer == Answer::Refused(12);
        match self.variant {
            Some(Variant::PositionFromZero) => step.position -= 1,
            Some(Variant::RefusedNotCounted) if refused => *position -= 1,
            Some(Variant::TwelveNotCounted) if twelve => *position -= 1,
            Some(Variant::CodeZeroAt12) if twelve => step.code = 0,
            Some(Variant::UnknownCodeAsZero) if shape_of_code(step.code).is_none() => step.code = 0,
            Some(Variant::CodeShownMod32) => step.code %= 1 << 32,
            Some(Variant::FourteenAtZero) if step.content == Content::TooLong => step.position = 0,
            _ => {}
        }
        step
    }
}
