//! The command bytes of sheets and bundles, and the lengths of commands that are counted by them.

/// The first byte of a sheet: the board.
pub const BOARD: u8 = 0x4D;
/// How long each receive takes, directly behind the board.
pub const UNPACKING: u8 = 0x55;
/// Wires the processors as a cube, behind the board and the time of receives.
pub const CUBE: u8 = 0x48;
/// A task of a sheet.
pub const TASK: u8 = 0x54;
/// A link of a sheet.
pub const LINK: u8 = 0x45;
/// The end of a sheet.
pub const END: u8 = 0x51;

/// Opens a programme of a bundle.
pub const OPEN: u8 = 0x50;
/// Runs a task.
pub const RUN: u8 = 0x52;
/// Sends a link's message.
pub const SEND: u8 = 0x53;
/// Receives a link's message.
pub const RECEIVE: u8 = 0x56;
/// Gives back the store of a task's result.
pub const RELEASE: u8 = 0x46;
/// Gives back the store of a received message.
pub const DISCARD: u8 = 0x47;
/// The claimed time, which ends a bundle.
pub const CLAIM: u8 = 0x5A;

pub const BOARD_LENGTH: usize = 6;
pub const UNPACKING_LENGTH: usize = 3;
pub const CUBE_LENGTH: usize = 1;
pub const TASK_LENGTH: usize = 5;
pub const LINK_LENGTH: usize = 7;
pub const END_LENGTH: usize = 1;
pub const RELEASE_LENGTH: usize = 2;
pub const DISCARD_LENGTH: usize = 3;
pub const CLAIM_LENGTH: usize = 5;
