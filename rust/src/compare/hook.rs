//! What a campaign compares beside the plain machine.

use super::Found;
use crate::calls::Ran;
use crate::generate::Call;
use crate::met::Met;
use crate::raw::RawState;

/// A call of a list that agrees with the plain machine.
pub struct Called<'a> {
    /// The call.
    pub call: &'a Call,
    /// The state handed in.
    pub before: &'a RawState,
    /// What was answered.
    pub ran: &'a Ran,
    /// The bytes answered as written.
    pub written: &'a [u8],
    /// The instants taken.
    pub instants: u64,
}

/// What else is compared, or counted, after each call of a list. The list goes on from what the call
/// returned, whatever is done here.
pub trait Hook {
    /// After a call.
    fn after_call(&mut self, called: &Called, met: &mut Met) -> Found;
}

/// No hook: nothing else is compared.
impl Hook for () {
    fn after_call(&mut self, _: &Called, _: &mut Met) -> Found {
        Ok(())
    }
}
