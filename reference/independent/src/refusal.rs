//! The refusal numbers.

/// Repeat level above the highest.
pub const LEVEL: u8 = 1;
/// Buffering time 0 or above 500.
pub const BUFFERING: u8 = 2;
/// Payload types outside 96..127, or equal.
pub const SETTINGS: u8 = 3;
/// Offered text does not fit in the waiting room.
pub const ROOM: u8 = 4;
/// Clock below the latest accepted clock.
pub const CLOCK: u8 = 5;
/// Offered text is not UTF-8.
pub const OFFERED_UTF8: u8 = 6;
/// Offered text is empty.
pub const EMPTY: u8 = 7;
/// Lent packet space shorter than the packet due.
pub const SPACE: u8 = 8;
/// Rate 0 or above 100.
pub const RATE: u8 = 9;
/// Packet under 12 bytes.
pub const SHORT: u8 = 10;
/// Packet over 1,472 bytes.
pub const LONG: u8 = 11;
/// Version is not 2.
pub const VERSION: u8 = 12;
/// Source list or extension passes the end.
pub const HEADER_END: u8 = 13;
/// Padding count 0, above the payload, or no payload to hold it.
pub const PADDING: u8 = 14;
/// Payload type is neither T140 nor RED.
pub const PAYLOAD_TYPE: u8 = 15;
/// Source differs from the expected one.
pub const SOURCE: u8 = 16;
/// Block headers pass the end.
pub const BLOCK_HEADERS_END: u8 = 17;
/// One older block too many.
pub const OLDER_TOO_MANY: u8 = 18;
/// A block's type is not T140.
pub const BLOCK_TYPE: u8 = 19;
/// Older blocks' lengths pass the end.
pub const BLOCKS_END: u8 = 20;
/// A block is not UTF-8.
pub const UTF8: u8 = 21;
/// Older blocks' time offsets do not fall to 1 or more.
pub const BLOCK_AGES: u8 = 22;

/// The packet lent as held is refused or has another number.
pub const HELD: u8 = 27;

/// Every number a reader can give.
pub const ALL: [u8; 14] = [3, 10, 11, 12, 13, 14, 15, 16, 17, 18, 19, 20, 21, 22];
