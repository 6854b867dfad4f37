//! The banks of the check of the rival "plain".

#[derive(Clone, Copy, PartialEq, Eq)]
pub enum State {
    Closed,
    Open,
    Refresh,
}

/// A bank, and the first instants that rules 5, 6, 7, 10 and 13 allow in it.
#[derive(Clone, Copy)]
pub struct Bank {
    pub state: State,
    pub last_act: Option<u64>,
    pub act_5: u64,
    pub prer_6: u64,
    pub act_7: u64,
    pub rd_10: u64,
    pub wr_10: u64,
    pub prer_13: u64,
}

pub const CLOSED: Bank = Bank {
    state: State::Closed,
    last_act: None,
    act_5: 0,
    prer_6: 0,
    act_7: 0,
    rd_10: 0,
    wr_10: 0,
    prer_13: 0,
};
