//! Counters: how often each rule was used.

use std::marker::PhantomData;

/// A list of rules that are counted, each with its wording.
pub trait Counted: Copy + 'static {
    /// Every rule, in the order of the counters.
    const ALL: &'static [(Self, &'static str)];

    /// The number of its counter.
    fn number(self) -> usize;
}

macro_rules! counted {
    ($list:ident { $($name:ident => $text:expr,)* }) => {
        #[derive(Clone, Copy, Debug, PartialEq, Eq)]
        pub enum $list { $($name),* }

        impl $crate::cover::Counted for $list {
            const ALL: &'static [(Self, &'static str)] = &[$(($list::$name, $text)),*];

            fn number(self) -> usize {
                self as usize
            }
        }
    };
}

pub(crate) use counted;

counted! { Rule {
    Refused1 => "refused: no register",
    Refused2 => "refused: word at an odd offset",
    Refused3 => "refused: no such channel",
    Refused4 => "refused: word write with the start bit",
    Refused5 => "refused: no such exception code",
    Refused8 => "refused: store",
    Refused9 => "refused: no interrupt to take",
    Refused10 => "refused: run over a full trace",
    BadLine => "bad line",
    AnsweredReset => "answer: reset",
    AnsweredIdle => "answer: idle",
    AnsweredHalted => "answer: halted",
    AnsweredRetry => "answer: retry",
    AnsweredWaiting => "answer: waiting",
    AnsweredError7 => "answer: error 7",
    AnsweredError9 => "answer: error 9",
    AnsweredError10 => "answer: error 10",
    AnsweredError11 => "answer: error 11",
    AnsweredRead => "answer: read cycle",
    AnsweredWrite => "answer: write cycle",
    AnsweredEntryWord => "answer: entry word",
    ReadByte => "registers: byte read",
    ReadWord => "registers: word read",
    WriteByte => "registers: byte write",
    WriteWord => "registers: word write",
    WordWithOneHalf => "registers: word with one half",
    ErrorCodeWriteIgnored => "registers: write to the error code ignored",
    GeneralWritten => "registers: general control written",
    ClearedComplete => "status: complete cleared by a write",
    ClearedBlock => "status: block bit cleared by a write",
    ClearedDeviceEnded => "status: device end cleared by a write",
    ClearedError => "status: error cleared by a write",
    BarredDeviceControl => "barred: device control",
    BarredOperationControl => "barred: operation control",
    BarredSequenceControl => "barred: sequence control",
    BarredTransferCount => "barred: transfer count",
    BarredMemoryAddress => "barred: memory address",
    BarredDeviceAddress => "barred: device address",
    BarredMemoryCode => "barred: memory function code",
    BarredDeviceCode => "barred: device function code",
    BarredBaseAddress => "barred: base address under chaining",
    BarredBaseCount => "barred: base count under chaining",
    BarredBaseCode => "barred: base function code under chaining",
    BarredByte => "barred: byte write",
    BarredWord => "barred: word write",
    BarredOneHalf => "barred: word with one barred half",
    Start2Active => "start, error 2: active",
    Start2Complete => "start, error 2: complete",
    Start2Block => "start, error 2: block bit",
    Start2DeviceEnded => "start, error 2: device end",
    Start2Error => "start, error 2: error",
    Start1Mode => "start, error 1: request mode",
    Start1Size => "start, error 1: size",
    Start1Chain => "start, error 1: chain",
    Start1MemoryCounting => "start, error 1: memory counting",
    Start1DeviceCounting => "start, error 1: device counting",
    Start1ContinueChained => "start, error 1: continue with chaining",
    Start1Single => "start, error 1: single addressing does not fit",
    Start1ByteByLine => "start, error 1: byte to a wide port by line",
    Start5 => "start, error 5",
    Start6 => "start, error 6",
    Start7 => "start, error 7",
    Start13 => "start, error 13",
    Start15 => "start, error 15",
    FailingChainedStartKeepsCount => "start: a failing chained start keeps the count",
    StartedUnchained => "start: unchained",
    StartedArray => "start: array",
    StartedLinked => "start: linked",
    StartedLinkedAtZero => "start: linked at base address 0",
    AbortActive => "abort, error 17",
    AbortInactive => "abort: inactive, nothing happens",
    ContinueInactive => "continue, error 2: inactive",
    ContinueChained => "continue, error 1: chained",
    ContinueBlockBit => "continue, error 2: block bit",
    ContinueSetAtStart => "continue: set at a start",
    ContinueSetLater => "continue: set later",
    ErrorInsideOperand => "error: inside an operand",
    ErrorInsideEntry => "error: inside an entry",
    ErrorKeepsFirstCode => "error: the first code is kept",
    EdgeLatched => "line: edge latched",
    EdgeAlreadyLatched => "line: second edge on a latched one",
    EdgeWhileInactive => "line: edge while inactive",
    LineOnGivesNoEdge => "line: already on, no edge",
    OperandByEdge => "operand: begun by an edge",
    OperandByLevel => "operand: begun by the level",
    FirstOperandAutomatic => "operand: first automatic",
    AutomaticKeepsEdge => "operand: first automatic keeps a latched edge",
    LaterOperandByEdge => "operand: after the first, by an edge",
    LaterOperandByLevel => "operand: after the first, by the level",
    KeptThroughHalt => "choice: kept through the channel's halt",
    KeptAgainstPriority => "choice: kept against a lower priority number",
    HaltedChannelPassedOver => "choice: halted channel passed over",
    ChosenByPriority => "choice: by priority",
    ChosenByRound => "choice: by the round",
    OddEntryBeforeException => "entry: odd address comes before the exception",
    HaltedInside => "halt: without the bus, inside",
    HaltWithBus => "halt: with the bus, a cycle is made",
    RetryInside => "retry: inside",
    RetryOutside => "retry: outside",
    Relinquished => "retry: bus relinquished",
    BusErrorMemory => "bus error: memory side",
    BusErrorSingle => "bus error: single addressing",
    BusErrorDevice => "bus error: device side",
    BusErrorEntry => "bus error: entry",
    UnansweredMemory => "unanswered: memory side",
    UnansweredSingle => "unanswered: single addressing",
    UnansweredDevice => "unanswered: device side",
    UnansweredEntry => "unanswered: entry",
    WaitingDualGive => "waiting: device to give, dual",
    WaitingDualTake => "waiting: device to take, dual",
    WaitingSingleGive => "waiting: device to give, single",
    WaitingSingleTake => "waiting: device to take, single",
    WaitingAtUnansweredPlace => "waiting: at an unanswered place, single",
    WaitingUnderHalt => "waiting: under halt",
    WaitingInside => "waiting: inside an operand",
    DoneWhileWaiting => "done line: while waiting, not counted",
    DoneInEarlyCycle => "done line: in an early cycle",
    DoneInMemoryCycle => "done line: in a cycle without the device, not counted",
    DoneWithinBlock => "done line: ends within a block",
    DoneWithEntriesLeft => "done line: ends with entries left",
    DoneSingle => "done line: ends in single addressing",
    DoneIgnoredAtEnd => "done line: ignored at the end",
    DoneIgnoredContinued => "done line: ignored, the next block is loaded",
    LoadedArrayEntry => "load: array entry",
    LoadedLinkedEntry => "load: linked entry",
    LoadedLaterEntry => "load: a later entry",
    LinkSentAsZero => "load: a link that is sent as 0 but is not 0",
    Entry5 => "load: entry, error 5",
    Entry13 => "load: entry, error 13",
    GoesOnInTable => "block end: goes on in the table",
    ContinuedBlock => "block end: continued",
    Continue5 => "block end: continued, error 5",
    Continue15 => "block end: continue, error 15",
    DeliveredBeforeContinue => "block end: continue waits for the count",
    EndedUnchained => "block end: complete, unchained",
    EndedArray => "block end: complete, array",
    EndedLinked => "block end: complete, linked",
    Byte8ToDevice => "operand: byte, narrow port, to device",
    Byte8ToMemory => "operand: byte, narrow port, to memory",
    Byte16ToDevice => "operand: byte, wide port, to device",
    Byte16ToMemory => "operand: byte, wide port, to memory",
    Word8ToDevice => "operand: word, narrow port, to device",
    Word8ToMemory => "operand: word, narrow port, to memory",
    Word16ToDevice => "operand: word, wide port, to device",
    Word16ToMemory => "operand: word, wide port, to memory",
    Long8ToDevice => "operand: long, narrow port, to device",
    Long8ToMemory => "operand: long, narrow port, to memory",
    Long16ToDevice => "operand: long, wide port, to device",
    Long16ToMemory => "operand: long, wide port, to memory",
    SingleByteToDevice => "operand: single, byte, to device",
    SingleByteToMemory => "operand: single, byte, to memory",
    SingleWordToDevice => "operand: single, word, to device",
    SingleWordToMemory => "operand: single, word, to memory",
    DualWithMemory => "operand: dual, memory at both sides",
    DualWithDeviceByLine => "operand: dual, plain device by line",
    Dual6800Automatic => "operand: dual, second kind of device, automatic",
    Dual6800ByLine => "operand: dual, second kind of device, by line",
    MemoryStill => "counting: memory still",
    MemoryUp => "counting: memory up",
    MemoryDown => "counting: memory down",
    DeviceStill => "counting: device still",
    DeviceUp => "counting: device up",
    DeviceDown => "counting: device down",
    WrappedMemoryAddress24 => "counting: memory address over 2^24",
    WrappedMemoryAddress32 => "counting: memory address over 2^32",
    WrappedDeviceAddress24 => "counting: device address over 2^24",
    WrappedDeviceAddress32 => "counting: device address over 2^32",
    WrappedBaseAddress24 => "counting: entry over 2^24",
    WrappedBaseAddress32 => "counting: base address over 2^32",
    DataWrittenIntoTable => "table: data written into an entry to come",
    ResetInsideOperand => "reset: inside an operand",
    ResetInsideEntry => "reset: inside an entry",
    ResetKeepsLine => "reset: a line stays on",
    StoreMade => "store: made",
    StoreNoPlace => "store: no place",
    StoreUnanswered => "store: unanswered",
    StoreIntoSourceOfOperand => "store: into the source of an operand under way",
    StoreIntoFetchedEntry => "store: into words of an entry already fetched",
    RunDone => "run: done",
    RunIdle => "run: idle",
    RunWaiting => "run: waiting",
    RunFull => "run: full",
    RunDoneAndFull => "run: done and full together",
    RunOfNothingOverFullTrace => "run: no steps over a full trace",
    RunGoesOnAfterError => "run: goes on after an error",
    EmptiedNone => "trace: nothing to move",
    EmptiedSome => "trace: some moved, some left",
    EmptiedShort => "trace: fewer than asked for",
    TakenNormal => "interrupt: taken, normal vector",
    TakenError => "interrupt: taken, error vector",
    TakenByPriority => "interrupt: taken by priority against the channel number",
    TakenAgain => "interrupt: taken again while a receipt is open",
    Closed => "interrupt: closed",
    ClosedLeavesUnseen => "interrupt: closing leaves an unseen report",
    ClosedClearsErrorCode => "interrupt: closing clears the error code",
}}

/// How often each rule of a list was used.
#[derive(Clone, Debug)]
pub struct Counts<R> {
    counts: Vec<u64>,
    of: PhantomData<R>,
}

/// How often each rule of the controller was used.
pub type Cover = Counts<Rule>;

impl<R: Counted> Default for Counts<R> {
    fn default() -> Self {
        Counts::new()
    }
}

impl<R: Counted> Counts<R> {
    pub fn new() -> Self {
        Counts { counts: vec![0; R::ALL.len()], of: PhantomData }
    }

    pub fn hit(&mut self, rule: R) {
        self.counts[rule.number()] += 1;
    }

    pub fn count(&self, rule: R) -> u64 {
        self.counts[rule.number()]
    }

    pub fn add(&mut self, other: &Counts<R>) {
        for (mine, theirs) in self.counts.iter_mut().zip(&other.counts) {
            *mine += theirs;
        }
    }

    /// The rules never used.
    pub fn unused(&self) -> Vec<&'static str> {
        R::ALL.iter().filter(|(rule, _)| self.count(*rule) == 0).map(|(_, text)| *text).collect()
    }

    pub fn table(&self) -> String {
        let mut text = String::new();
        for (rule, wording) in R::ALL {
            text.push_str(&format!("{:>10}  {}\n", self.count(*rule), wording));
        }
        text
    }
}
