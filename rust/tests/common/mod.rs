//! What several test files begin with.

use maybenot_core::{Core, Kind, Opening, Side, SideOpening, SimEvent};

/// One machine on each side.
pub fn opening() -> Opening {
    let side = SideOpening {
        machines: 1,
        ..SideOpening::default()
    };
    Opening {
        client: side,
        server: side,
        ..Opening::default()
    }
}

pub fn core(records: usize) -> Core<'static> {
    Core::with_records(records, &opening()).expect("inside the limits")
}

pub fn packet(moment: u64) -> SimEvent {
    SimEvent::new(Kind::NORMAL_SENT, Side::Client, moment)
}
