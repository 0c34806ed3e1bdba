//! The numbers of a feeding's state, whatever their names.

use capstanbar::ffi::FeedingState;

/// How many there are.
pub const NUMBERS: usize = size_of::<FeedingState>() / size_of::<usize>();

/// The state with another number in one of its places.
pub fn with(state: FeedingState, place: usize, number: usize) -> FeedingState {
    // SAFETY: a state is laid out as in C, and has nothing but numbers of this size.
    let mut numbers: [usize; NUMBERS] = unsafe { std::mem::transmute(state) };
    numbers[place] = number;
    // SAFETY: the same; any numbers may stand in a state.
    unsafe { std::mem::transmute(numbers) }
}
