//! The driver's loop, and what it sees.

use crate::{listed, RATE, WINDOW};
use maybenot_core::{Action, Choice, Core, Kind, Opening, Refusal, Side, SimEvent, Step};

/// Records enough for the packets, the padding and the stamps of a window.
const RECORDS: usize = 1024;

/// An action that is set at the start and again each time it has happened.
pub struct Repeated {
    pub side: Side,
    pub machine: u64,
    /// The action, at the moment of its first time.
    pub action: Action,
    /// How long after one time the next comes.
    pub every: u64,
    /// No time comes later than this.
    pub until: u64,
}

/// A schedule with a name and a sentence on what is to be seen.
pub struct Plan {
    pub name: &'static str,
    pub says: &'static str,
    pub schedule: Vec<Repeated>,
}

/// A packet or padding that enters the tunnel.
pub struct Sent {
    pub side: Side,
    pub moment: u64,
    pub padding: bool,
    /// How much later than the packet list has it; 0 for padding.
    pub late: u64,
}

/// A side's packets are blocked.
pub struct Blocked {
    pub side: Side,
    pub from: u64,
    pub to: u64,
}

/// The rate limit bites: until the count falls, one more packet of the side would be delayed.
pub struct Bites {
    pub side: Side,
    pub from: u64,
    /// When the packet count falls, by one at least, if nothing else is sent.
    pub until: u64,
}

/// The aggregate delays from a moment on.
pub struct Sums {
    pub moment: u64,
    pub of: [u64; 2],
}

/// What a run saw.
pub struct Run {
    pub plan: Plan,
    pub sent: Vec<Sent>,
    pub blocked: Vec<Blocked>,
    pub bites: Vec<Bites>,
    pub sums: Vec<Sums>,
    /// When the last packet of the list was received, and how many events the driver stepped on.
    pub last_received: u64,
    pub steps: u64,
}

/// Whether an event tells that an action of the schedule has happened.
fn happened(event: &SimEvent, planned: &Repeated) -> bool {
    let by_machine = matches!(event.kind, Kind::PADDING_SENT | Kind::BLOCKING_BEGIN);
    by_machine && event.side == planned.side && event.machine == planned.machine
}

impl Run {
    fn new(plan: Plan) -> Run {
        Run {
            plan,
            sent: vec![],
            blocked: vec![],
            bites: vec![],
            sums: vec![Sums {
                moment: 0,
                of: [0, 0],
            }],
            last_received: 0,
            steps: 0,
        }
    }

    /// What the schedule asks for after an event: the next time of the action that has happened.
    fn follow(&self, core: &mut Core, event: &SimEvent) -> Result<(), Refusal> {
        for planned in &self.plan.schedule {
            let moment = event.moment + planned.every;
            if happened(event, planned) && moment <= planned.until {
                let action = Action {
                    moment,
                    ..planned.action
                };
                core.set_action(planned.side, planned.machine, &action)?;
            }
        }
        Ok(())
    }

    /// By how much the next packet of a side is later than in the list.
    fn lateness(&self, side: Side, moment: u64) -> u64 {
        let sent = |s: &&Sent| s.side == side && !s.padding;
        let at = self.sent.iter().filter(sent).count();
        listed(side)
            .get(at)
            .map_or(0, |t| moment.saturating_sub(*t))
    }

    /// Keeps what is drawn and printed.
    fn note(&mut self, core: &Core, event: &SimEvent) {
        let SimEvent { side, moment, .. } = *event;
        match event.kind {
            Kind::TUNNEL_SENT => self.sent.push(Sent {
                side,
                moment,
                padding: event.padding,
                late: if event.padding {
                    0
                } else {
                    self.lateness(side, moment)
                },
            }),
            Kind::NORMAL_RECV => self.last_received = moment,
            Kind::BLOCKING_BEGIN => self.blocked.push(Blocked {
                side,
                from: moment,
                to: core.block_end(side).unwrap_or(moment),
            }),
            _ => {}
        }
        let of = Side::BOTH.map(|side| core.sum(side));
        if self.sums.last().map_or(true, |last| last.of != of) {
            self.sums.push(Sums { moment, of });
        }
        self.steps += 1;
    }

    /// Keeps how long the rate limit bites after a packet was sent. The step tells when the oldest packet that counts goes,
    /// and so which one it is. Time does not go backwards in this loop: all that the side has sent from it on counts.
    fn note_limit(&mut self, event: &SimEvent, step: Step) {
        let Some(until) = step.falls else {
            return;
        };
        let SimEvent { side, moment, .. } = *event;
        let oldest = until - 1 - WINDOW;
        let counts = |s: &&Sent| s.side == side && s.moment >= oldest;
        if self.sent.iter().filter(counts).count() as u64 >= RATE {
            self.bites.push(Bites {
                side,
                from: moment,
                until,
            });
        }
    }

    /// The latest moment until which the rate limit bites on a side.
    pub fn bites_until(&self, side: Side) -> Option<u64> {
        let on_side = self.bites.iter().filter(|b| b.side == side);
        on_side.map(|b| b.until).max()
    }
}

/// Opens the line, pushes the packet list and sets the first actions.
fn started(opening: &Opening, plan: &Plan) -> Result<Core<'static>, Refusal> {
    let mut core = Core::with_records(RECORDS, opening)?;
    for side in Side::BOTH {
        for moment in listed(side) {
            core.push_sim(&SimEvent::new(Kind::NORMAL_SENT, side, moment))?;
        }
    }
    for planned in &plan.schedule {
        core.set_action(planned.side, planned.machine, &planned.action)?;
    }
    Ok(core)
}

/// The driver's loop: choose, step, follow the schedule, until nothing is left.
pub fn run(opening: &Opening, plan: Plan) -> Result<Run, Refusal> {
    let mut core = started(opening, &plan)?;
    let mut run = Run::new(plan);
    let mut now = 0;
    while let Choice::Event { event, .. } = core.pick_next(now)? {
        now = event.moment;
        let step = core.sim_network_stack(now, &event)?;
        run.follow(&mut core, &event)?;
        run.note(&core, &event);
        run.note_limit(&event, step);
    }
    Ok(run)
}
