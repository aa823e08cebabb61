//! The command bytes.

pub const END: u8 = 0x00;
pub const NEXT: u8 = 0x01;
pub const CLOCK: u8 = 0x02;
pub const RESUME: u8 = 0x03;
pub const DROP: u8 = 0x04;
pub const ASYNC: u8 = 0x05;
pub const FINISH: u8 = 0x06;
pub const REPEAT: u8 = 0x07;
pub const ACC: u8 = 0x08;
pub const OFFER: u8 = 0x09;
pub const READ: u8 = 0x0A;
pub const RESET: u8 = 0x0B;
pub const PUT: u8 = 0x0C;
pub const FETCH: u8 = 0x0D;
pub const STORE: u8 = 0x0E;
pub const ADD: u8 = 0x0F;
pub const ATOM: u8 = 0x10;
pub const CHOOSE: u8 = 0x11;
