//! Faults that the tests plant: each is one blunder in one rule. The comparison
//! must find every one of them.

/// The rules to go by: the papers', or the papers' with one fault.
#[derive(Clone, Copy, Debug, Default)]
pub struct Rules {
    pub fault: Option<Fault>,
}

impl Rules {
    pub(crate) fn has(self, fault: Fault) -> bool {
        self.fault == Some(fault)
    }
}

/// Defines the faults, their list and what each says.
macro_rules! faults {
    ($($name:ident: $says:literal,)*) => {
        #[derive(Clone, Copy, Debug, PartialEq, Eq)]
        pub enum Fault {
            $(#[doc = $says] $name,)*
        }

        impl Fault {
            pub const ALL: &'static [Fault] = &[$(Fault::$name,)*];

            /// The wrong rule, in a sentence.
            pub fn says(self) -> &'static str {
                match self {
                    $(Fault::$name => $says,)*
                }
            }
        }
    };
}

faults! {
    // Level book
    OrderBothWays: "refusal 2 lets two levels hold both ways",
    OrderNotTransitive: "refusal 2 asks for no transitivity",
    OrderPlaceLargest: "refusal 2 gives the largest level at fault",
    UpperLevelsOnly: "refusal 3 asks for least common upper levels only",
    LowerLevelsOnly: "refusal 3 asks for greatest common lower levels only",
    OneLevelIsEnough: "refusal 3 is given only for a pair that lacks both levels",
    // Level book: which pair refusal 3 is given for
    PairsByJFirst: "refusal 3 takes the pairs by j first, then i",
    UppersBeforeLowers: "refusal 3 looks for a pair without an upper level before one without a lower level",
    LowersBeforeUppers: "refusal 3 looks for a pair without a lower level before one without an upper level",
    LackingPairLast: "refusal 3 gives the last pair that lacks a level",
    PlaceCountsPairs: "refusal 3 gives the number of pairs taken up for its place",
    PlaceTimesCount: "refusal 3 gives n times i and j for its place",
    // Level book: the levels of the pairs
    FirstPairLeft: "the sweep leaves the first pair",
    LastPairLeft: "the sweep leaves the last pair",
    FirstEntryLeft: "a pair's levels are stored at (j, i) only",
    SecondEntryLeft: "a pair's levels are stored at (i, j) only",
    DiagonalLeft: "the diagonal of the tables is left 0",
    DiagonalOverwritten: "a pair's levels are stored at (i, i), too",
    LevelsExchanged: "join and meet are exchanged for a pair whose upper level has the smaller number",
    SideBySideByNumber: "the levels of a pair side by side are its own two, by their numbers",
    AnyUpperLevel: "the join of a pair side by side is its common upper level of the smallest number",
    AnyLowerLevel: "the meet of a pair side by side is its common lower level of the largest number",
    LevelFifteenLeft: "common levels are looked for among the levels 0 to 14",
    // Script file
    EntriesCut: "refusal 4 lets offsets cut an entry",
    NamesBelow64: "refusal 5 is given for 64 names",
    OwnerOfAnotherName: "refusal 6 lets the owner declare another name",
    ConstantFieldUnchecked: "refusal 7 lets field a of a constant hold anything",
    ZeroByteUnchecked: "refusal 8 lets the zero byte of a node hold anything",
    UnusedFieldUnchecked: "refusal 8 lets an unused field hold anything",
    ChildMayBeParent: "refusal 8 lets a child have its parent's number",
    DeclaresAnyName: "refusal 8 lets a node declare a name it doesn't own",
    UnusedPartPasses: "refusal 9 lets a part be used by none",
    LooseNodesFirst: "refusal 9 looks at nodes before expressions",
    LetExpressionInside: "refusal 10 counts a let's expression as inside its body",
    GuardIsNoUse: "refusal 10 doesn't count the signal of when and watching",
    // Write level and test level
    SecondOperandIgnored: "an expression's level leaves out its second operand",
    NilWritesBottom: "nil's write level is bottom",
    LetFlowUnchecked: "a let needs nothing",
    IfJoinsWrites: "an if's write level is the join of its branches'",
    WatchingFlowUnchecked: "watching needs nothing",
    WhenFlowUnchecked: "a when needs nothing",
    WhileAgainstConditionOnly: "a while is checked against D alone",
    SequenceReversed: "a sequence needs T of b at or below W of a",
    ParallelOneWay: "a parallel needs only T of a at or below W of b",
    FlowPlaceLast: "refusal 11 gives the last node whose need fails",
    // Flows: which pairs are listed
    AssignedFlowUnlisted: "flows: no pair comes from an assigned expression",
    LetFlowUnlisted: "flows: no pair comes from a let's expression",
    RightOperandUnlisted: "flows: no pair comes from the right operand of an expression",
    FirstBranchUnlisted: "flows: an if's expression isn't joined with what its first branch writes",
    SecondBranchUnlisted: "flows: an if's expression isn't joined with what its second branch writes",
    WhenFlowUnlisted: "flows: a when's signal isn't joined with what its body writes",
    WatchingFlowUnlisted: "flows: a watching's signal isn't joined with what its body writes",
    WhileConditionUnlisted: "flows: a while's expression isn't joined with what its body writes",
    WhileBodyUnlisted: "flows: what a while's body tests isn't joined with what it writes",
    SequenceListedReversed: "flows: a sequence joins tests of the second part with writes of the first",
    SequenceListedBothWays: "flows: a sequence joins tests of each part with writes of the other",
    ParallelListedForth: "flows: a parallel joins only tests of a with writes of b",
    ParallelListedBack: "flows: a parallel joins only tests of b with writes of a",
    // Flows: what a node tests and writes
    BranchTestsForgotten: "flows: what the branches of an if test is no test of the if",
    ConditionForgotten: "flows: the expression of an if or while is no test around it",
    GuardForgotten: "flows: the signal of a when or watching is no test around it",
    AssignmentIsTest: "flows: an assignment tests the registers of its expression",
    LetIsTest: "flows: a let tests the registers of its expression",
    AssignmentIsNoWrite: "flows: an assignment is no write",
    EmissionIsNoWrite: "flows: an emission is no write",
    OwnedIsNoWrite: "flows: what is assigned or emitted to an owned name is no write",
    LetIsWrite: "flows: a let writes its name",
    LocalIsWrite: "flows: a local writes its name",
    // Flows: the sets
    OwnLevelListed: "flows: a level is in its own set",
    FlowsTransposed: "flows: the set of a level holds those from which data must flow to it",
    FlowsClosed: "flows: a pair that follows from two others is listed, too",
    LevelsAboveSevenLost: "flows: a set holds the levels 0 to 7 only",
    LastLevelUnlisted: "flows: the set of the last level is empty",
    // Flows: refusals
    FlowsKeptByRefusal: "flows: a file refused by 10 keeps its sets",
    LevelPastLastPasses: "flows: refusal 6 lets a name have the level past the last",
    LastLevelRefused: "flows: refusal 6 is given for the last level",
    // Moves: the figure
    NilIsCounted: "moves: nil nodes are counted, too",
    ParallelIsNoNode: "moves: parallel nodes are left out of k",
    ParallelsForgotten: "moves: the figure is k",
    ParallelsWithoutOne: "moves: the figure is k × p",
    OneAddedToProduct: "moves: the figure is k × p + 1",
    FigureOneLess: "moves: the figure is one less",
    FigureLessParallels: "moves: the figure is less by p",
    ParallelsCountAsOne: "moves: several parallel nodes count as one",
    ParallelsByDepth: "moves: p is the most parallel nodes inside each other",
    FigureInOneByte: "moves: the figure is taken modulo 256",
    FirstBranchCounts: "moves: of an if only the first branch is counted",
    SecondBranchCounts: "moves: of an if only the second branch is counted",
    LargerBranchCounts: "moves: of an if only the branch of more nodes is counted",
    // Moves: where there is a while
    WhileHasFigure: "moves: a script with a while has a figure",
    NestedWhileOverlooked: "moves: only a while that is the whole script is seen",
    WhileInBranchOverlooked: "moves: a while in a branch of an if is overlooked",
    WhileInSecondPartOverlooked: "moves: a while in the second part of a sequence or parallel is overlooked",
    DeadWhileOverlooked: "moves: a while whose expression is the constant 0 is overlooked",
    FigureOfWhileKept: "moves: a script with a while is not bounded and keeps its figure",
    WhileIsBoundedByNothing: "moves: a script with a while is bounded by 0",
    NoFigureOfZero: "moves: a script whose figure is 0 has none",
    // Moves: refusals and counting
    FigureKeptByRefusal: "moves: a script refused by 11 keeps its figure",
    RefusedIsBounded: "moves: a refused script is bounded by 0",
    ChangesAreMoves: "moves: instant changes are counted as moves",
    TradesAreNoMoves: "moves: trades of a parallel are not counted as moves",
    // Expressions
    SumWraps: "a sum wraps around",
    ProductWraps: "a product wraps around",
    DivisionCutsTowardZero: "division cuts toward zero",
    DivisionRoundsDown: "division rounds down",
    TieTowardZero: "a tie of a division goes toward zero",
    TieAwayFromZero: "a tie of a division goes away from zero",
    TieUp: "a tie of a division goes up",
    TieToOdd: "a tie of a division goes to the odd number",
    DivisionByZeroIsOne: "division by zero gives 1",
    LessIsAtMost: "less holds for equal operands",
    NotFlipsBits: "not flips the bits of its operand",
    TestHoldsIfPositive: "a test holds if positive",
    // Moves
    NilDroppedAtOnce: "nil before a sequence takes no step",
    WhileRunsOnce: "a while leaves its body without itself",
    LocalNotReset: "a local signal is still present when its declaration is entered again",
    WatchingKillsAtOnce: "watching goes as soon as its signal is present",
    WhenTestsOnce: "a when goes once its body has begun to move",
    TradesWithSuspended: "a parallel trades places though both parts are suspended",
    NoTradeWithNil: "a parallel doesn't trade places when its right part is nil",
    NilRightPartDropped: "a parallel drops a nil right part",
    NilLeftPartTrades: "a parallel trades places where its left part is nil",
    TradesAfterEachMove: "a parallel trades places after each move of its left part",
    AbsentWhenMoves: "a when whose signal is absent moves and stays as it is",
    // Instant changes
    InstantKeepsSignals: "an instant change keeps the signals",
    WatchingKillsIfAbsent: "an instant change kills a watching whose signal is absent",
    WatchingNeverKills: "an instant change kills no watching",
    AbsentWhenChangesBody: "an instant change changes the body of a when whose signal is absent",
    SequenceChangesBoth: "an instant change changes both parts of a sequence",
    ParallelChangesLeftOnly: "an instant change changes the left part of a parallel only",
    // Instant changes: the list
    ListedLate: "a listed signal is present one instant late",
    ListedEarly: "a listed signal is present one instant early",
    ListedStays: "a listed signal is still present in the next instant",
    ListedBeforeChange: "an instant change sees the signals of the instant that it enters",
    ListTakenInTurn: "each instant change takes the next listed instant, whatever its number",
    ListTakesOnePair: "an instant takes only its first pair",
    ListRepeatsCancel: "a pair that repeats makes its signal absent",
    ListInstantsWrap: "the list's instants are taken modulo 65,536",
    ListedSealedAbsent: "a listed signal above the reader's level is absent",
    ListedTakesStep: "entering an instant with listed signals takes a step more",
    ListedWritesLine: "a listed signal writes a line",
    ListedNeedsLine: "a listed signal needs room for a line and writes none",
    // Run: refusals
    ReaderMayBeCount: "refusal 12 lets the reader's level be the number of levels",
    ValuesLengthUnchecked: "refusal 13 doesn't look at the length",
    ValuesPlaceFromOne: "refusal 13 counts entries from 1",
    SignalMayBeTwo: "refusal 13 lets a signal be 2",
    OwnedValueUnchecked: "refusal 13 lets an owned name have a value",
    LimitBelowMillion: "refusal 14 is given for 1,000,000",
    ListBeforeLimit: "refusal 15 comes before 14",
    ListFromInstantZero: "refusal 15 lets an instant be 0",
    ListMayFall: "refusal 15 lets instants fall",
    ListMustRise: "refusal 15 is given for two pairs of one instant",
    ListedOwnedSignal: "refusal 15 lets an owned signal be listed",
    ListedRegisterIsOne: "refusal 15 lets a register be listed, which becomes 1",
    ListedPastNames: "refusal 15 lets a number past the names be listed",
    HalfPairPasses: "refusal 15 lets half a pair stand at the end",
    ListPastLimitPasses: "refusal 15 passes over instants past the limit",
    ListPlaceFromOne: "refusal 15 counts pairs from 1",
    ListPlaceInWords: "refusal 15 gives a word for its place",
    ListPlaceLast: "refusal 15 gives the last pair at fault",
    // Run: endings, lines and values
    SpentBeforeFinished: "spent is tested before finished",
    LogFullBeforeSpent: "log full is tested before spent",
    LogFullEarly: "the log is full when exactly four words are left",
    FullLogDropsLines: "a full log drops lines and doesn't end the run",
    StepsFromZero: "lines are stamped with steps from 0",
    InstantsFromOne: "lines are stamped with instants from 1",
    LetWritesLine: "a let writes a line",
    EveryLevelLogged: "every level is logged",
    ReaderLevelOnly: "only names at exactly the reader's level are logged",
    SealedWritesUseLog: "writes above the reader's level use up the log",
    EmissionLogsName: "an emission's line has the name as its value",
    EqualAssignmentIsNoLine: "an assignment of the value that its register holds is no line",
    OwnedNamesKept: "owned names keep their last value at the end",
    // Run: which emissions are lines
    RepeatIsLine: "an emission that finds its signal present is a line",
    RepeatNeedsRoom: "an emission that finds its signal present needs room for a line and writes none",
    RepeatsUseLog: "emissions that find their signal present use up the log",
    RepeatTakesNoStep: "an emission that finds its signal present takes no step",
    RepeatsInARowOnly: "an emission that finds its signal present is a line unless its signal was written last",
    OwnedRepeatIsLine: "an emission that finds an owned signal present is a line",
    ListedSignalIsLine: "an emission that finds its signal present by the list is a line",
    StartSignalIsLine: "an emission that finds its signal present by the start values is a line",
    RenewalForgotten: "an emission is no line if its signal was present before its local was entered again",
    InstantForgotten: "an emission is no line if its signal was present in the instant before",
    OneLineInARun: "a signal has one line in a run",
    NoEmissionIsLine: "presence is looked up after the emission, so that none is a line",
    EmissionNeedsNoRoom: "no emission ends the run as log full",
}
