//! The exported `seat_encode` and the original crate's `KeyEvent::encode_kitty`, over the same key events.

pub mod classes;
pub mod ring;
pub mod sides;
pub mod timing;
