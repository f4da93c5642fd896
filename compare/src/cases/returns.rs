//! What a return adds up and compares, brought into range but for some that stay at an edge or beyond it.

use super::values::near;
use super::Maker;
use crate::case::*;

const LEAST: i64 = i32::MIN as i64;
const MOST: i64 = i32::MAX as i64;

/// The value of a two's complement word.
fn value(word: u32) -> i64 {
    i64::from(word as i32)
}

/// The word of the value, or of the end that it is beyond.
fn word(value: i64) -> u32 {
    value.clamp(LEAST, MOST) as i32 as u32
}

impl Maker {
    /// Sets the caller's row and the revert counter by the current frame, which holds `left` after the charge.
    pub fn settle_return(&mut self, state: &mut State, left: u32) {
        let Some(caller) = state.saved.last_mut() else { return };
        self.settle_ergs(caller, left);
        self.settle_bounds(caller, &state.current);
        let spent = value(state.current.0[place::PUBDATA]);
        self.settle_pubdata(caller, spent);
        self.settle_counter(&mut state.revert_counter, spent);
    }

    fn settle_ergs(&mut self, caller: &mut Row, left: u32) {
        let room = u32::MAX - left;
        let ergs = &mut caller.0[place::ERGS];
        *ergs = match self.random.below(20) {
            0 => near(&mut self.random, room),
            1 => room,
            2 => *ergs,
            _ => room.min(*ergs),
        };
    }

    fn settle_bounds(&mut self, caller: &mut Row, current: &Row) {
        for i in [place::HEAP_BOUND, place::AUX_HEAP_BOUND] {
            let (bound, of_current) = (&mut caller.0[i], current.0[i]);
            *bound = match self.random.below(20) {
                0 => near(&mut self.random, of_current),
                1 => *bound,
                2..8 => of_current,
                _ => of_current.min(*bound),
            };
        }
    }

    /// On ok the sum of both is from `LEAST` to `MOST`.
    fn settle_pubdata(&mut self, caller: &mut Row, spent: i64) {
        let pubdata = &mut caller.0[place::PUBDATA];
        *pubdata = match self.random.below(20) {
            0 => word(MOST - spent + 1),
            1 => word(LEAST - spent - 1),
            2 => *pubdata,
            _ => word((value(*pubdata) + spent).clamp(LEAST, MOST) - spent),
        };
    }

    /// The counter, and on failure the counter less what was spent, is from 0 to `MOST`.
    fn settle_counter(&mut self, counter: &mut u32, spent: i64) {
        *counter = match self.random.below(20) {
            0 => word(spent - 1),
            1 => word(spent),
            2 => word(MOST + spent + i64::from(self.random.below(2))),
            3 => *counter,
            _ => word(value(*counter).min(MOST + spent.min(0)).max(spent.max(0))),
        };
    }
}
