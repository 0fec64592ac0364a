//! Rooms that are as long as they need to be, and no longer.

/// Makes room for so many in all.
pub fn fit<T>(room: &mut Vec<T>, length: usize) {
    room.reserve_exact(length.saturating_sub(room.len()));
}

/// Makes a room so long. What is new in it is the given value.
pub fn resize<T: Clone>(room: &mut Vec<T>, length: usize, value: T) {
    fit(room, length);
    room.resize(length, value);
}
