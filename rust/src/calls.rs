//! The calls. Each lends its block to the archive and turns the number that comes back into an answer.

use crate::block::Core;
use crate::choice::{choice_of, Choice, CHOICE_WORDS};
use crate::event::{Action, Side, SimEvent};
use crate::opening::Opening;
use crate::refusal::{told, Refusal};
use crate::step::{step_of, Step, STEP_WORDS};
use crate::sys;

impl Core<'_> {
    /// Opens the state anew: every record is free, all else is as after [`Core::open_in`].
    ///
    /// ```
    /// use maybenot_core::{Core, Opening};
    ///
    /// let mut core = Core::with_records(1, &Opening::default())?;
    /// let refusal = core.open(&Opening { network_rate: Some(0), ..Opening::default() }).unwrap_err();
    /// assert_eq!(refusal.number(), 4);
    /// # Ok::<(), maybenot_core::Refusal>(())
    /// ```
    pub fn open(&mut self, opening: &Opening) -> Result<(), Refusal> {
        let (block, words) = self.lend();
        let Opening { client, server, .. } = opening;
        // SAFETY: `lend` gives a block that is aligned, not null and borrowed for this call alone.
        let number = unsafe {
            sys::maybenot_core_open(
                block,
                words,
                opening.network_delay,
                u64::from(opening.network_rate.is_some()),
                opening.network_rate.unwrap_or(0),
                u64::from(opening.queue_rate.is_some()),
                opening.queue_rate.unwrap_or(0),
                opening.window,
                client.action_delay,
                server.action_delay,
                client.reporting_delay,
                server.reporting_delay,
                client.machines,
                server.machines,
            )
        };
        told(number, 0)
    }

    /// Pushes an event. Gives 1, 2, 3, 5, 6, 7 or 9.
    ///
    /// ```
    /// use maybenot_core::{Core, Kind, Opening, Side, SimEvent};
    ///
    /// let mut core = Core::with_records(1, &Opening::default())?;
    /// let packet = SimEvent::new(Kind::NORMAL_SENT, Side::Server, 100);
    /// core.push_sim(&packet)?;
    /// assert_eq!(core.push_sim(&packet).unwrap_err().number(), 9);
    /// # Ok::<(), maybenot_core::Refusal>(())
    /// ```
    pub fn push_sim(&mut self, event: &SimEvent) -> Result<(), Refusal> {
        let (block, words) = self.lend();
        // SAFETY: `lend` gives a block that is aligned, not null and borrowed for this call alone.
        let number = unsafe {
            sys::maybenot_core_push_sim(
                block,
                words,
                event.kind.0,
                event.moment,
                event.delay,
                event.side.crossing(),
                u64::from(event.padding),
                u64::from(event.bypass),
                u64::from(event.replace),
                event.machine,
            )
        };
        told(number, 0)
    }

    /// Sets a machine's action in the place of the one it has. Gives 1, 2, 3, 5, 6, 7 or 9.
    ///
    /// ```
    /// use maybenot_core::{Action, Core, Opening, Side};
    ///
    /// let mut core = Core::with_records(8, &Opening::default())?;
    /// let refusal = core.set_action(Side::Client, 0, &Action::send_padding(5)).unwrap_err();
    /// assert_eq!(refusal.number(), 5); // the client has no machine
    /// # Ok::<(), maybenot_core::Refusal>(())
    /// ```
    pub fn set_action(&mut self, side: Side, machine: u64, action: &Action) -> Result<(), Refusal> {
        let (block, words) = self.lend();
        // SAFETY: `lend` gives a block that is aligned, not null and borrowed for this call alone.
        let number = unsafe {
            sys::maybenot_core_set_action(
                block,
                words,
                side.crossing(),
                machine,
                action.kind.0,
                action.moment,
                action.duration,
                u64::from(action.bypass),
                u64::from(action.replace),
            )
        };
        told(number, 0)
    }

    /// Clears a machine's action, if it has one. Gives 1, 2, 3 or 5.
    ///
    /// ```
    /// use maybenot_core::{Core, Opening, Side, SideOpening};
    ///
    /// let machine = SideOpening { machines: 1, ..SideOpening::default() };
    /// let mut core = Core::with_records(8, &Opening { client: machine, ..Opening::default() })?;
    /// core.clear_action(Side::Client, 0)?;
    /// # Ok::<(), maybenot_core::Refusal>(())
    /// ```
    pub fn clear_action(&mut self, side: Side, machine: u64) -> Result<(), Refusal> {
        let (block, words) = self.lend();
        // SAFETY: `lend` gives a block that is aligned, not null and borrowed for this call alone.
        let number =
            unsafe { sys::maybenot_core_clear_action(block, words, side.crossing(), machine) };
        told(number, 0)
    }

    /// Sets a machine's timer in the place of the one it has. Gives 1, 2, 3, 5, 7 or 9.
    ///
    /// ```
    /// use maybenot_core::{Core, Kind, Opening, Side, SideOpening};
    ///
    /// let machine = SideOpening { machines: 1, ..SideOpening::default() };
    /// let mut core = Core::with_records(8, &Opening { server: machine, ..Opening::default() })?;
    /// core.set_timer(Side::Server, 0, 40)?;
    /// assert_eq!(core.pick_next(0)?.event().map(|e| (e.kind, e.moment)), Some((Kind::TIMER_END, 40)));
    /// # Ok::<(), maybenot_core::Refusal>(())
    /// ```
    pub fn set_timer(&mut self, side: Side, machine: u64, moment: u64) -> Result<(), Refusal> {
        let (block, words) = self.lend();
        // SAFETY: `lend` gives a block that is aligned, not null and borrowed for this call alone.
        let number =
            unsafe { sys::maybenot_core_set_timer(block, words, side.crossing(), machine, moment) };
        told(number, 0)
    }

    /// Clears a machine's timer, if it has one. Gives 1, 2, 3 or 5.
    ///
    /// ```
    /// use maybenot_core::{Core, Opening, Side};
    ///
    /// let mut core = Core::with_records(8, &Opening::default())?;
    /// assert_eq!(core.clear_timer(Side::Server, 0).unwrap_err().number(), 5);
    /// # Ok::<(), maybenot_core::Refusal>(())
    /// ```
    pub fn clear_timer(&mut self, side: Side, machine: u64) -> Result<(), Refusal> {
        let (block, words) = self.lend();
        // SAFETY: `lend` gives a block that is aligned, not null and borrowed for this call alone.
        let number =
            unsafe { sys::maybenot_core_clear_timer(block, words, side.crossing(), machine) };
        told(number, 0)
    }

    /// Chooses the next event at or after `now`, in nanoseconds. Gives 1, 2, 3, 7 or 10.
    ///
    /// ```
    /// use maybenot_core::{Core, Kind, Opening, Side, SimEvent};
    ///
    /// let mut core = Core::with_records(4, &Opening::default())?;
    /// core.push_sim(&SimEvent::new(Kind::NORMAL_SENT, Side::Client, 100))?;
    /// let choice = core.pick_next(0)?;
    /// assert_eq!(choice.event().map(|e| (e.kind, e.moment)), Some((Kind::NORMAL_SENT, 100)));
    /// # Ok::<(), maybenot_core::Refusal>(())
    /// ```
    pub fn pick_next(&mut self, now: u64) -> Result<Choice, Refusal> {
        let mut out = [0; CHOICE_WORDS];
        let (block, words) = self.lend();
        // SAFETY: `lend` gives a block that is aligned, not null and borrowed for this call alone; `out` is a variable.
        let number =
            unsafe { sys::maybenot_core_pick_next(block, words, now, out.as_mut_ptr(), out.len()) };
        let choice = choice_of(&out);
        told(number, choice.rounds())?;
        Ok(choice)
    }

    /// Makes the network step on an event, at a time in nanoseconds. Tells whether there was network activity and, of a
    /// packet that enters the tunnel, when the packet count falls. Gives 1, 2, 3, 5, 6, 7, 8, 9 or 10.
    ///
    /// ```
    /// use maybenot_core::{Core, Kind, Opening, Side, SimEvent};
    ///
    /// let mut core = Core::with_records(4, &Opening { network_delay: 20, window: 10, ..Opening::default() })?;
    /// let step = core.sim_network_stack(100, &SimEvent::new(Kind::TUNNEL_SENT, Side::Client, 100))?;
    /// assert_eq!((step.active, step.falls), (true, Some(111)));
    /// let received = core.pick_next(100)?.event();
    /// assert_eq!(received, Some(SimEvent::new(Kind::TUNNEL_RECV, Side::Server, 120)));
    /// # Ok::<(), maybenot_core::Refusal>(())
    /// ```
    pub fn sim_network_stack(&mut self, time: u64, event: &SimEvent) -> Result<Step, Refusal> {
        let mut out = [0; STEP_WORDS];
        let (block, words) = self.lend();
        // SAFETY: `lend` gives a block that is aligned, not null and borrowed for this call alone; `out` is a variable.
        let number = unsafe {
            sys::maybenot_core_sim_network_stack(
                block,
                words,
                time,
                event.kind.0,
                event.moment,
                event.delay,
                event.side.crossing(),
                u64::from(event.padding),
                u64::from(event.bypass),
                u64::from(event.replace),
                event.machine,
                out.as_mut_ptr(),
                out.len(),
            )
        };
        told(number, 0)?;
        Ok(step_of(&out))
    }
}
