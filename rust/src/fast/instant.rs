//! The next tick, the status, and one instant.

use super::tables::FIRST_NODE_BIT;
use super::{Fast, IntegratorState};
use crate::limits::{EVENT_BYTES, INTEGRATORS, M, NEVER, SOURCES, WORD_BYTES};
use crate::status::Status;

/// Due ticks that are looked at together.
const LANES: usize = 8;
/// As many integrators as are quicker looked at one by one.
const FEW: usize = 8;

impl Fast {
    /// The next tick, and the integrators that are due at it.
    #[inline]
    pub(super) fn next_tick_and_due(&self) -> (u32, u32) {
        let command = match self.next < self.tables.command_count {
            true => self.tables.commands[self.next].tick,
            false => NEVER,
        };
        if self.tables.n <= FEW {
            return next_tick_and_due_of_few(&self.dues[..self.tables.n], command);
        }
        let rows = self.dues[..self.tables.n.next_multiple_of(LANES)].chunks_exact(LANES);
        let mut least = [NEVER; LANES];
        for row in rows.clone() {
            for (least, &due) in least.iter_mut().zip(row) {
                *least = due.min(*least);
            }
        }
        let tick = least.into_iter().fold(command, u32::min);
        let mut mask = 0;
        for row in rows.rev() {
            let mut due = 0;
            for (lane, &d) in row.iter().enumerate() {
                due |= u32::from(d == tick) << lane;
            }
            mask = mask << LANES | due;
        }
        (tick, mask)
    }

    /// The status, from the next tick and who is due at it. A finished plan may have never as its
    /// tick, which is above every horizon; then all integrators count as due.
    #[inline]
    pub(super) fn status(&self, tick: u32, due: u32) -> Status {
        if tick > self.tables.horizon {
            return Status::Finished;
        }
        for i in members(due) {
            let value = self.integrators[i].position_at(tick);
            if !(-M..=M).contains(&value) {
                return Status::Range(i);
            }
        }
        Status::Paused
    }

    /// Takes the instant, with its events from `at` on; answers the place behind them. The eager
    /// engine moves every integrator.
    #[inline]
    pub(super) fn take<const EAGER: bool>(
        &mut self,
        tick: u32,
        due: u32,
        buffer: &mut [u8],
        at: usize,
    ) -> usize {
        for i in members(due) {
            let integrator = &mut self.integrators[i];
            integrator.x = integrator.position_at(tick);
            integrator.l = tick;
            self.values[i] = integrator.x;
        }
        let changed = u64::from(due) | self.obey_commands(tick);
        let mut reached = 0;
        let mut end = at;
        for source in members_of_64(changed) {
            reached |= self.tables.reach[source];
            let event = &mut buffer[end..end + EVENT_BYTES];
            event[..WORD_BYTES].copy_from_slice(&tick.to_le_bytes());
            event[WORD_BYTES..2 * WORD_BYTES].copy_from_slice(&(source as u32).to_le_bytes());
            event[2 * WORD_BYTES..].copy_from_slice(&(self.values[source] as i32).to_le_bytes());
            end += EVENT_BYTES;
        }
        self.work_out_nodes((reached >> FIRST_NODE_BIT) as u32);
        self.updates += match EAGER {
            true => self.move_all(tick),
            false => self.move_members(due | reached as u32, tick),
        };
        self.clock = tick;
        self.instants += 1;
        end
    }

    /// Sets the inputs commanded at a tick; answers their sources as a mask.
    #[inline]
    fn obey_commands(&mut self, tick: u32) -> u64 {
        let mut set = 0;
        let later = self.next.min(self.tables.command_count);
        for command in &self.tables.commands[later..self.tables.command_count] {
            if command.tick != tick {
                break;
            }
            self.values[usize::from(command.source)] = command.value;
            set |= 1 << command.source;
            self.next += 1;
        }
        set
    }

    /// Works out the nodes of a mask, in node order.
    #[inline]
    fn work_out_nodes(&mut self, nodes: u32) {
        for j in members(nodes) {
            let node = &self.tables.nodes[j];
            self.values[usize::from(node.source)] = node.value(&self.values);
        }
    }

    /// Moves the integrators of a mask; answers how many.
    #[inline]
    fn move_members(&mut self, moved: u32, tick: u32) -> u64 {
        for i in members(moved) {
            self.move_integrator(i, tick);
        }
        u64::from(moved.count_ones())
    }

    /// Moves every integrator; answers how many.
    #[inline]
    fn move_all(&mut self, tick: u32) -> u64 {
        for i in 0..self.tables.n {
            self.move_integrator(i, tick);
        }
        self.tables.n as u64
    }

    /// Brings an integrator to a tick, with the slope and due tick that it has from there.
    #[inline]
    fn move_integrator(&mut self, i: usize, tick: u32) {
        let entry = &self.tables.integrators[i];
        let integrator = &mut self.integrators[i];
        integrator.x = integrator.position_at(tick);
        integrator.l = tick;
        integrator.s = self.tables.rate(entry, &self.values);
        self.dues[i] = integrator.due(entry.quantum, self.values[i]);
    }
}

impl IntegratorState {
    /// x + s × (t − l).
    #[inline]
    fn position_at(&self, tick: u32) -> i64 {
        self.x + self.s * i64::from(tick - self.l)
    }

    /// The due tick. The distance to the level ahead is 1 to 2^31 − 1, so a speed that is no less
    /// takes one tick, and for any other speed 32 bits are enough to divide in.
    #[inline]
    pub(super) fn due(&self, quantum: i64, q: i64) -> u32 {
        if self.s == 0 {
            return NEVER;
        }
        let away = if self.s > 0 { self.x - q } else { q - self.x };
        let distance = quantum - away;
        let speed = self.s.abs();
        if speed >= distance {
            return self.l + 1;
        }
        self.l + (distance as u32).div_ceil(speed as u32)
    }
}

/// The least of some due ticks and a command's, and which of the due ticks are that.
#[inline(never)]
fn next_tick_and_due_of_few(dues: &[u32], command: u32) -> (u32, u32) {
    let (mut tick, mut mask) = (command, 0);
    for (i, &due) in dues.iter().enumerate() {
        if due < tick {
            (tick, mask) = (due, 0);
        }
        mask |= u32::from(due == tick) << i;
    }
    (tick, mask)
}

/// The integrators or nodes of a mask, lowest first.
#[inline]
fn members(mut mask: u32) -> impl Iterator<Item = usize> {
    std::iter::from_fn(move || {
        if mask == 0 {
            return None;
        }
        let lowest = mask.trailing_zeros() as usize % INTEGRATORS;
        mask &= mask - 1;
        Some(lowest)
    })
}

/// The sources of a mask, lowest first.
#[inline]
fn members_of_64(mut mask: u64) -> impl Iterator<Item = usize> {
    std::iter::from_fn(move || {
        if mask == 0 {
            return None;
        }
        let lowest = mask.trailing_zeros() as usize % SOURCES;
        mask &= mask - 1;
        Some(lowest)
    })
}
