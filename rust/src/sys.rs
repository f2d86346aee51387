//! The functions of the archive, as `include/maybenot_core.h` has them.
//!
//! The safe crate calls these; use them where a measurement or a test wants the bare call. A lent block crosses as a
//! pointer and a number of words. A side is 0 for the server and anything else for the client, a flag is 0 for no and
//! anything else for yes. What is returned is the number of the refusal, 0 for none.
//!
//! # Safety
//!
//! Of every function here: `block` points to `words` words that are aligned to 8 bytes and that nobody else reads or
//! writes during the call; it is not null, even where `words` is 0. The same holds of `out` and `out_words`, of `answers`
//! and `answers_words`, of `second` and `second_words`, and, but that others may read them too, of `calls` and `calls_words`
//! and of the block of packing; none of these overlap.
//! Nothing is asked of what the words hold, nor of the numbers.

extern "C" {
    /// Whether the words are an accepted state. Only reads.
    pub fn maybenot_core_accepted(block: *const u64, words: usize) -> bool;

    /// Opens a state in the words, whatever they held.
    pub fn maybenot_core_open(
        block: *mut u64,
        words: usize,
        network_delay: u64,
        has_network_rate: u64,
        network_rate: u64,
        has_queue_rate: u64,
        queue_rate: u64,
        window: u64,
        client_action_delay: u64,
        server_action_delay: u64,
        client_reporting_delay: u64,
        server_reporting_delay: u64,
        client_machines: u64,
        server_machines: u64,
    ) -> u64;

    /// Pushes an event.
    pub fn maybenot_core_push_sim(
        block: *mut u64,
        words: usize,
        kind: u64,
        moment: u64,
        delay: u64,
        side: u64,
        padding: u64,
        bypass: u64,
        replace: u64,
        machine: u64,
    ) -> u64;

    /// Sets a machine's action.
    pub fn maybenot_core_set_action(
        block: *mut u64,
        words: usize,
        side: u64,
        machine: u64,
        kind: u64,
        moment: u64,
        duration: u64,
        bypass: u64,
        replace: u64,
    ) -> u64;

    /// Clears a machine's action.
    pub fn maybenot_core_clear_action(
        block: *mut u64,
        words: usize,
        side: u64,
        machine: u64,
    ) -> u64;

    /// Sets a machine's timer.
    pub fn maybenot_core_set_timer(
        block: *mut u64,
        words: usize,
        side: u64,
        machine: u64,
        moment: u64,
    ) -> u64;

    /// Clears a machine's timer.
    pub fn maybenot_core_clear_timer(block: *mut u64, words: usize, side: u64, machine: u64)
        -> u64;

    /// Chooses the next event. `out` is ten words: 1 where there is an event, else 0; the rounds; then the event's
    /// kind, moment, delay, side (1 client, 0 server), padding, bypass, replace and machine, or eight zeros. An `out` of
    /// another length is left as it was, and the call is made all the same.
    pub fn maybenot_core_pick_next(
        block: *mut u64,
        words: usize,
        time: u64,
        out: *mut u64,
        out_words: usize,
    ) -> u64;

    /// Makes a network step. `out` is three words: 1 where there is network activity, else 0; 1 where there is a moment at
    /// which the packet count falls, else 0; that moment, or 0. An `out` of another length is left as it was, and the call
    /// is made all the same.
    pub fn maybenot_core_sim_network_stack(
        block: *mut u64,
        words: usize,
        time: u64,
        kind: u64,
        moment: u64,
        delay: u64,
        side: u64,
        padding: u64,
        bypass: u64,
        replace: u64,
        machine: u64,
        out: *mut u64,
        out_words: usize,
    ) -> u64;

    /// Packs the state of `block`, which is only read, into `second`. A second block of another length is refused with 1 and
    /// left as it was.
    pub fn maybenot_core_pack(
        block: *const u64,
        words: usize,
        second: *mut u64,
        second_words: usize,
    ) -> u64;

    /// Makes the calls of a list, and answers how many were made. Of each row of twelve words in `calls` the first is the
    /// code, 0 to 7, and the arguments follow; its answer is sixteen words in `answers`: the number of the refusal, what the
    /// call writes to `out`, and zeros. The header says what a turn is (code 7), and where a list stops.
    pub fn maybenot_core_calls(
        block: *mut u64,
        words: usize,
        calls: *const u64,
        calls_words: usize,
        answers: *mut u64,
        answers_words: usize,
    ) -> u64;
}
