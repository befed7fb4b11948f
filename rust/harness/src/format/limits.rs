//! The limits of the format.

/// The length of the longest file.
pub const LONGEST: usize = 4_294_967_295;
/// The highest number of blocks in a file.
pub const MOST_BLOCKS: usize = 64;
/// The highest depth at which a file is read.
pub const DEEPEST: u8 = 7;
/// How many levels of files are read: depths 0 to 7.
pub const LEVELS: usize = DEEPEST as usize + 1;
