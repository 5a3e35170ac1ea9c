//! The statuses of the library. Made by `dev/interface`.

/// A status of `enum precopy_status` in `include/precopy.h`: why a call refuses, or what is wrong in streams.
#[derive(Clone, Copy, Debug, PartialEq, Eq, PartialOrd, Ord, Hash)]
#[non_exhaustive]
#[repr(u32)]
pub enum Status {
    /// trace E1: it has fewer than the 16 bytes of a header
    ShortHeader = 1,
    /// trace E2: it does not begin with PCWT
    BadMagic = 2,
    /// trace E3: its version is not 1 or 2
    BadVersion = 3,
    /// trace E4: its pages do not have 16 to 4,096 bytes
    BadShift = 4,
    /// trace E5: byte 6 or 7 is not 0
    BadReserved = 5,
    /// trace E6: it does not have 1 to 65,536 pages
    BadPages = 6,
    /// trace E7: it has more than 1,048,576 writes
    TooManyWrites = 7,
    /// trace E8: it ends within this record
    ShortRecord = 8,
    /// trace E9: the tick is below that of the previous record
    TickOrder = 9,
    /// trace E10: the tick is 2^40 or more
    TickTooLarge = 10,
    /// trace E11: the guest does not have the page
    PageOutOfRange = 11,
    /// trace E12: the write has no bytes, and is no release
    EmptyWrite = 12,
    /// trace E13: the write goes beyond its page
    OutOfPage = 13,
    /// trace E14: bytes follow the last record
    TrailingBytes = 14,
    /// trace E15: it has more than 2^28 bytes
    TooLong = 15,
    /// memory ran out
    NoMemory = 16,
    /// settings S1: min is not 1 to 1,000,000
    BadMin = 21,
    /// settings S2: max is not min to 1,000,000
    BadMax = 22,
    /// settings S3: increment is more than 1,000,000
    BadIncrement = 23,
    /// settings S4: threshold is not 1 to 65,536
    BadThreshold = 24,
    /// settings S5: rounds is not 1 to 64
    BadRounds = 25,
    /// settings S6: window is not 1 to 2^40
    BadWindow = 26,
    /// settings S7: hot is not 1 to 1,048,576
    BadHot = 27,
    /// settings S8: start is 2^40 or more
    BadStart = 28,
    /// settings S10: base is after start
    BadBase = 30,
    /// a struct of settings, a question or starts has another size than the library knows
    BadSize = 31,
    /// frame F1: a frame is cut off
    FrameShort = 41,
    /// frame F2: a page is not below the number of pages
    FramePage = 42,
    /// frame F3: a stamp is greater than the number of writes
    FrameStamp = 43,
    /// frame F4: a kind is not 0 or 1
    FrameKind = 44,
    /// frame F5: a page of zeros comes byte by byte
    FrameZeros = 45,
    /// a buffer is too short for what belongs there
    ShortBuffer = 61,
    /// the number of bytes is not that of a page
    PageLength = 62,
    /// the length of memory is not that of all pages
    MemoryLength = 63,
    /// there is not an element for each page
    PageCount = 64,
    /// a page did not come
    PageMissing = 65,
    /// the streams do not have as many bytes as their sizes say
    StreamSizes = 66,
    /// the guest does not have the page
    NoPage = 67,
    /// a step ends before it begins
    Backwards = 68,
    /// no write to the page has the place of the stamp
    NoVersion = 71,
    /// the stamp is of a write after the stop
    AfterStop = 72,
    /// a frame of the page with a greater stamp came before in the stream
    Older = 73,
    /// the bytes are not those of the page at the stamp
    OtherBytes = 74,
    /// a page is not at its version at the stop
    PageBehind = 75,
    /// question: a tick is not 1 microsecond to 1 second
    BadTick = 81,
    /// question: a page does not have 16 to 4,096 bytes
    BadPage = 82,
    /// question: not 1 page to all of the guest were sampled, or it has more than 2^32
    BadSample = 83,
    /// question: the rate of the link is not 1 to 1,000,000 pages per 1,000 ticks; take another tick
    BadLink = 84,
    /// question: the rate of the first round is not 1 page per 1,000 ticks to that of the link
    BadFirst = 85,
    /// question: the reserve is longer than the downtime
    BadReserve = 86,
    /// question: more than 65,535 pages go over the link within the downtime
    BadDowntime = 87,
    /// the pages of the trace have another size than the question says
    OtherPages = 88,
    /// the trace has more pages than the question says were sampled
    MorePages = 89,
    /// there are more than 4,096 starts; take them further apart
    TooManyStarts = 90,
    /// a status of a later library, which this crate does not know
    Unknown = 0xffff_ffff,
}

impl Status {
    pub(crate) fn of(number: u32) -> Status {
        match number {
            1 => Status::ShortHeader,
            2 => Status::BadMagic,
            3 => Status::BadVersion,
            4 => Status::BadShift,
            5 => Status::BadReserved,
            6 => Status::BadPages,
            7 => Status::TooManyWrites,
            8 => Status::ShortRecord,
            9 => Status::TickOrder,
            10 => Status::TickTooLarge,
            11 => Status::PageOutOfRange,
            12 => Status::EmptyWrite,
            13 => Status::OutOfPage,
            14 => Status::TrailingBytes,
            15 => Status::TooLong,
            16 => Status::NoMemory,
            21 => Status::BadMin,
            22 => Status::BadMax,
            23 => Status::BadIncrement,
            24 => Status::BadThreshold,
            25 => Status::BadRounds,
            26 => Status::BadWindow,
            27 => Status::BadHot,
            28 => Status::BadStart,
            30 => Status::BadBase,
            31 => Status::BadSize,
            41 => Status::FrameShort,
            42 => Status::FramePage,
            43 => Status::FrameStamp,
            44 => Status::FrameKind,
            45 => Status::FrameZeros,
            61 => Status::ShortBuffer,
            62 => Status::PageLength,
            63 => Status::MemoryLength,
            64 => Status::PageCount,
            65 => Status::PageMissing,
            66 => Status::StreamSizes,
            67 => Status::NoPage,
            68 => Status::Backwards,
            71 => Status::NoVersion,
            72 => Status::AfterStop,
            73 => Status::Older,
            74 => Status::OtherBytes,
            75 => Status::PageBehind,
            81 => Status::BadTick,
            82 => Status::BadPage,
            83 => Status::BadSample,
            84 => Status::BadLink,
            85 => Status::BadFirst,
            86 => Status::BadReserve,
            87 => Status::BadDowntime,
            88 => Status::OtherPages,
            89 => Status::MorePages,
            90 => Status::TooManyStarts,
            _ => Status::Unknown,
        }
    }

    /// Returns its number.
    pub fn number(self) -> u32 {
        self as u32
    }
}
