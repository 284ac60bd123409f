//! What every kind of tag has: its state and draw number.

/// A state, in one byte, so that it is compared at once.
#[derive(Clone, Copy, PartialEq, Eq, PartialOrd, Debug)]
pub struct State(u8);

impl State {
    pub const OFF: State = State(0);
    pub const IDLE: State = State(1);
    pub const DECLARED: State = State(2);
    pub const HALTED: State = State(3);

    /// Waits for the marker of the slot that it drew.
    pub fn requested(slot: u8) -> State {
        State(0x40 | slot)
    }

    /// Obeys data commands with the card number that it was given.
    pub fn active(cid: u8) -> State {
        State(0x80 | cid)
    }

    fn is_active(self) -> bool {
        self >= State(0x80)
    }
}

#[derive(Clone, Debug)]
pub struct Link {
    pub state: State,
    draw: u16,
}

impl Link {
    pub fn new(draw: u16) -> Link {
        Link {
            state: State::OFF,
            draw,
        }
    }

    pub fn gain_power(&mut self) {
        if self.state == State::OFF {
            self.state = State::IDLE;
        }
    }

    pub fn lose_power(&mut self) {
        self.state = State::OFF;
    }

    /// Hears a request, and tells whether to answer. Of several slots one is drawn; the first is answered at once.
    pub fn request(&mut self, family: u8, wake_up: bool, slots: u8) -> bool {
        let halted = self.state == State::HALTED;
        if self.state == State::OFF || self.state.is_active() || halted && (!wake_up || family > 1)
        {
            return false;
        }
        self.state = if family > 1 {
            State::IDLE
        } else {
            match self.draw_slot(slots) {
                1 => State::DECLARED,
                slot => State::requested(slot),
            }
        };
        self.state == State::DECLARED
    }

    /// Of one slot nothing is drawn. The number of slots is a power of two.
    fn draw_slot(&mut self, slots: u8) -> u8 {
        if slots == 1 {
            return 1;
        }
        let slot = 1 + ((self.draw >> 12) as u8 & (slots - 1));
        self.draw = self.draw.wrapping_mul(25173).wrapping_add(13849);
        slot
    }
}
