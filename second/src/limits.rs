//! The limits of the paper, each named once.

/// "metadata 1 to 61,440 bytes"
pub const METADATA_MAX: usize = 61_440;
/// "D at most 2^48"
pub const DATASET_MAX: u64 = 1 << 48;
/// "nesting 32"
pub const NESTING_MAX: usize = 32;
/// "256 members per object"
pub const MEMBERS_MAX: usize = 256;
/// "channels 1 to 1,024"
pub const CHANNELS_MAX: u64 = 1_024;
/// "the end index above 2^64 - 1" is refused.
pub const INDEX_MAX: u128 = u64::MAX as u128;
