//! What came up, how often, and what never did.

use std::fmt;

macro_rules! items {
    ($($name:ident = $text:literal,)*) => {
        /// Something that must come up in a run.
        #[derive(Clone, Copy, Debug, PartialEq, Eq)]
        pub enum Item {
            $($name,)*
        }

        const ITEMS: &[(Item, &str)] = &[$((Item::$name, $text),)*];
    };
}

items! {
    Accepted = "reading: accepted",
    Refused1 = "reading: refusal 1",
    Refused2 = "reading: refusal 2",
    Refused3 = "reading: refusal 3",
    Refused4 = "reading: refusal 4",
    Refused5 = "reading: refusal 5",
    Refused6 = "reading: refusal 6",
    Refused7 = "reading: refusal 7",
    Refused8 = "reading: refusal 8",
    Refused9 = "reading: refusal 9",
    Refused10 = "reading: refusal 10",
    Refused11 = "reading: refusal 11",
    Refused12 = "reading: refusal 12",
    TwoCauses = "reading: two causes at once",
    LengthBelow = "refusal 1: N below 13",
    LengthAbove = "refusal 1: N above 2,048",
    SpacecraftAbove = "refusal 1: spacecraft above 1,023",
    StoreBelow = "refusal 2: store too short",
    StoreAbove = "refusal 2: store too long",
    WordsOfRecord = "refusal 4: not 32 words",
    HeardAbove = "refusal 4: heard above 1",
    CountAbove = "refusal 4: count above 255",
    StateAbove = "refusal 4: state above 2",
    HuntingNumber = "refusal 4: hunting with a number",
    UnheardGathering = "refusal 4: gathering unheard",
    UnheardSkipping = "refusal 4: skipping unheard",
    HeldAbove = "refusal 4: more than 4,095 held",
    HeldForeign = "refusal 4: held version not 000",
    HeldWhole = "refusal 4: held total not above k",
    HeldOversize = "refusal 4: held total above 4,096",
    SkipNothing = "refusal 4: skipping 0",
    SkipAbove = "refusal 4: skipping more than 65,536",
    FrameShort = "refusal 5: frame too short",
    FrameLong = "refusal 5: frame too long",
    OrderFlag = "refusal 11: order flag",
    SegmentId = "refusal 11: segment id",
    PointerAtD = "refusal 12: pointer is D",
    KindPackets = "kind: packets",
    KindIdle = "kind: idle",
    KindPrivate = "kind: private",
    PrivateOrder = "private: order flag or segment id odd",
    PrivatePointer = "private: pointer not below D",
    PrivateIdle = "private: pointer 2046",
    NoGap = "count: gap 0, heard before",
    Gap = "count: gap 1 to 254",
    Gap255 = "count: gap 255",
    Delivered = "count: delivered 1",
    DeliveredMany = "count: delivered 2 or more",
    Idle = "count: idle 1 or more",
    BrokenByGap = "count: broken by a gap",
    BrokenByIdle = "count: broken by an idle frame",
    BrokenByPrivate = "count: broken by a private frame",
    BrokenByPointer = "count: broken by disagreement",
    DisagreedGathering = "count: disagreement while gathering",
    DisagreedSkipping = "count: disagreement while skipping",
    DisagreedBetween = "count: disagreement between packets",
    Foreign = "count: foreign",
    ForeignLater = "count: foreign after a delivered packet",
    Oversize = "count: oversize",
    OversizeSplit = "count: oversize with a split header",
    MostPackets = "count: as many packets as D allows, 2 or more",
    Packet7 = "packet: 7 octets delivered",
    Packet4096 = "packet: 4,096 octets delivered",
    Packet4097 = "packet: 4,097 octets, oversize",
    Packet65542 = "packet: 65,542 octets, oversize",
    HeldFinished = "step: held packet finished",
    HeldFinishedExact = "step: held packet ends at D",
    HeldLonger = "step: held packet goes on",
    HeldUnknown = "step: length still unknown",
    SkipGoesOn = "step: skip goes on",
    SkipEnded = "step: skip ends below D",
    SkipEndedExact = "step: skip ends at D",
    HuntedOn = "step: hunting, none starts",
    AfterHunting = "after: hunting",
    AfterExact = "after: gathering 0",
    AfterSplit = "after: gathering 1 to 5",
    AfterHeld = "after: gathering 6 or more",
    AfterHeldMost = "after: gathering 4,095",
    AfterSkipping = "after: skipping",
    Skip65536 = "record: skipping 65,536 accepted",
    Held4095 = "record: gathering 4,095 accepted",
    UnheardCount = "record: unheard with a last count accepted",
    Secondary1 = "frame: secondary header of 1",
    Secondary = "frame: secondary header of 2 to 63",
    Secondary64 = "frame: secondary header of 64",
    ControlWord = "frame: control word",
    Checked = "frame: error control",
    Unchecked = "frame: no error control",
    Shortest = "frame: N = 13",
    Longest = "frame: N = 2,048",
    DataOne = "frame: D = 1",
    AnswerNone = "lent: answer of 0 words",
    AnswerShort = "lent: answer too short",
    AnswerLong = "lent: answer with words to spare",
    OutputLong = "lent: output with octets to spare",
    Due = "sender: packets due in a call, all there",
    DueLossy = "sender: packets due after lost frames, all there",
    Written = "writing: accepted",
    WriteRefused1 = "writing: refusal 1",
    WriteRefused20 = "writing: refusal 20",
    WriteRefused21 = "writing: refusal 21",
    WriteRefused22 = "writing: refusal 22",
    WriteRefused23 = "writing: refusal 23",
    WriteRefused24 = "writing: refusal 24",
    WriteRefused25 = "writing: refusal 25",
    ChainForeign = "refusal 22: a version other than 000",
    ChainCut = "refusal 22: last packet cut",
    LeftAbove = "refusal 24: left-over above 6",
    LeftInside = "refusal 24: left-over inside the run",
    WriteIdle = "writing: idle frame",
    WriteFull = "writing: field full of the run",
    WriteExact = "writing: run ends at the field's end",
    WriteFiller = "writing: filler of 7 or more",
    WriteCutFiller = "writing: filler cut, new left-over",
    WriteLeft = "writing: left-over placed",
    WriteLeftStays = "writing: left-over does not fit",
    WriteNoStart = "writing: pointer 2047",
    WriteStart = "writing: pointer above 0",
    WriteInside = "writing: from inside a packet",
    WriteWord = "writing: control word",
    WriteChecked = "writing: error control",
    WriteWraps = "writing: a count wraps",
    WriteEmpty = "writing: empty run",
    WriteLongest = "writing: run of 65,536",
    WriteAnswerShort = "writing: answer too short",
    WriteAnswerLong = "writing: answer with words to spare",
    ReadBack = "writing: run read back whole",
    Opened = "opening: opened",
    OpenRefused1 = "opening: refusal 1",
    OpenRefused5 = "opening: refusal 5",
    OpenRefused6 = "opening: refusal 6",
    OpenRefused7 = "opening: refusal 7",
    OpenRefused8 = "opening: refusal 8",
    OpenRefused9 = "opening: refusal 9",
    OpenRefused10 = "opening: refusal 10",
    OpenRefused11 = "opening: refusal 11",
    OpenRefused12 = "opening: refusal 12",
    OpenTwoCauses = "opening: two causes at once",
    OpenPrivate = "opening: private",
    OpenSecondary = "opening: secondary header",
    OpenWord = "opening: control word",
    OpenChecked = "opening: error control",
    OpenAll = "opening: secondary header, control word and error control",
    OpenDataOne = "opening: D = 1",
    OpenAnswerNone = "opening: answer of 0 words",
    OpenAnswerShort = "opening: answer too short",
    OpenAnswerLong = "opening: answer with words to spare",
    OpenLaid = "opening: the values that were laid",
    OpenAsRead = "opening: the values that reading gives",
    OpenRefusedAsRead = "opening: refused as reading refuses",
    Closed = "closing: closed",
    CloseRefused1 = "closing: refusal 1",
    CloseRefused20 = "closing: refusal 20",
    CloseRefused25 = "closing: refusal 25",
    CloseTwoCauses = "closing: two causes at once",
    CloseShort = "refusal 25: output too short, closing",
    CloseLong = "refusal 25: output too long, closing",
    CloseWord = "closing: control word",
    CloseNoWord = "closing: a word that is not asked for",
    CloseChecked = "closing: error control",
    CloseDataOne = "closing: D = 1",
    CloseAbove = "closing: pointer above 2,047",
    ClosePast = "closing: pointer past the data field, 12 when opened",
    CloseOpened = "closing: opened with the values given",
    BusyNone = "busy: none",
    BusyAll = "busy: all eight",
    BusySome = "busy: some",
    BusyShort = "busy: channel with words missing",
    BusyLong = "busy: more than 32 words",
    BusyAnswerShort = "busy: answer too short",
    SyndromeEmpty = "syndrome: no octets",
    SyndromeShort = "syndrome: 1 to 4,096 octets",
    SyndromeLong = "syndrome: more than 65,536 octets",
    SyndromeZero = "syndrome: zero",
    DeskAccepted = "desk: accepted",
    DeskRefused = "desk: refused",
    DeskPackets = "desk: packets handed out",
    DeskLoaded = "desk: saved and loaded while busy",
    DeskWritten = "desk: written",
    WrapperOpened = "wrapper: opened",
    WrapperNotOpened = "wrapper: not opened",
    WrapperClosed = "wrapper: closed",
    WrapperNotClosed = "wrapper: not closed",
}

/// How often each item came up.
#[derive(Clone, Debug)]
pub struct Table(Vec<u64>);

impl Default for Table {
    fn default() -> Table {
        Table(vec![0; ITEMS.len()])
    }
}

impl Table {
    pub fn hit(&mut self, item: Item) {
        self.0[item as usize] += 1;
    }

    pub fn hit_if(&mut self, came_up: bool, item: Item) {
        self.0[item as usize] += u64::from(came_up);
    }

    pub fn times(&self, item: Item) -> u64 {
        self.0[item as usize]
    }

    /// What never came up.
    pub fn missing(&self) -> Vec<&'static str> {
        ITEMS.iter().filter(|(item, _)| self.times(*item) == 0).map(|(_, text)| *text).collect()
    }
}

impl fmt::Display for Table {
    fn fmt(&self, f: &mut fmt::Formatter<'_>) -> fmt::Result {
        for (item, text) in ITEMS {
            writeln!(f, "  {:>9}  {text}", self.times(*item))?;
        }
        Ok(())
    }
}

/// The item of a refused reading.
pub fn refused(number: u32) -> Option<Item> {
    use Item::*;
    let items = [
        Refused1, Refused2, Refused3, Refused4, Refused5, Refused6, Refused7, Refused8, Refused9,
        Refused10, Refused11, Refused12,
    ];
    items.get((number as usize).wrapping_sub(1)).copied()
}

/// The item of a refused writing.
pub fn write_refused(number: u32) -> Option<Item> {
    use Item::*;
    match number {
        1 => Some(WriteRefused1),
        20 => Some(WriteRefused20),
        21 => Some(WriteRefused21),
        22 => Some(WriteRefused22),
        23 => Some(WriteRefused23),
        24 => Some(WriteRefused24),
        25 => Some(WriteRefused25),
        _ => None,
    }
}

/// The item of a refused opening.
pub fn open_refused(number: u32) -> Option<Item> {
    use Item::*;
    match number {
        1 => Some(OpenRefused1),
        5 => Some(OpenRefused5),
        6 => Some(OpenRefused6),
        7 => Some(OpenRefused7),
        8 => Some(OpenRefused8),
        9 => Some(OpenRefused9),
        10 => Some(OpenRefused10),
        11 => Some(OpenRefused11),
        12 => Some(OpenRefused12),
        _ => None,
    }
}

/// The item of a refused closing.
pub fn close_refused(number: u32) -> Option<Item> {
    use Item::*;
    match number {
        1 => Some(CloseRefused1),
        20 => Some(CloseRefused20),
        25 => Some(CloseRefused25),
        _ => None,
    }
}

#[cfg(test)]
mod tests {
    use super::*;

    #[test]
    fn an_item_that_never_came_up_is_missing() {
        let mut table = Table::default();
        assert_eq!(table.missing().len(), ITEMS.len());
        ITEMS.iter().for_each(|(item, _)| table.hit(*item));
        assert_eq!(table.missing(), Vec::<&str>::new());
        let mut all_but_one = Table::default();
        let others = ITEMS.iter().filter(|(item, _)| *item != Item::Refused9);
        others.for_each(|(item, _)| all_but_one.hit(*item));
        assert_eq!(all_but_one.missing(), ["reading: refusal 9"]);
    }

    #[test]
    fn items_stand_in_order() {
        assert!(ITEMS.iter().enumerate().all(|(place, (item, _))| *item as usize == place));
    }

    #[test]
    fn numbers_and_items() {
        assert_eq!((refused(1), refused(12)), (Some(Item::Refused1), Some(Item::Refused12)));
        assert_eq!((refused(0), refused(13), write_refused(19)), (None, None, None));
        assert_eq!((open_refused(2), close_refused(21)), (None, None));
    }
}
