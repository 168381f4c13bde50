//! Units held while their AS is pending: their bytes, and what the state keeps of each.
use crate::gateway::Gateway;
use crate::sys;
use std::fmt;

/// The hold (Rule 5.22): the bytes of the units that wait with a pending AS. Make one for each gateway, keep
/// it beside the state, and lend it to every event. The state says which units there are, the hold has their
/// bytes; so whoever copies or stores the one copies or stores the other.
///
/// ```
/// use m2ua::{sys, write, Event, Gateway, Hold, MessageType, Orders, Parameter};
///
/// // One ASP with identifier 7 in one AS, override; one link with identifier 100.
/// let plan = [
///     0, 0, 0, 24, 0, 0, 0, 1, 0, 0, 0, 32, 0, 0, 0, 1, 0, 0, 0, 36, 0, 0, 0, 1, 0, 0, 0, 7, 0, 1, 0, 0, 0, 0, 0, 1, 0, 0, 0, 100, 0, 0, 0, 0,
/// ];
/// let (mut gateway, mut hold, mut orders) = (Gateway::load(&plan)?, Hold::new(), Orders::new());
/// let (up, active) = (write(MessageType::Up, &[])?, write(MessageType::Active, &[])?);
/// let link = Parameter::new(sys::TAG_INTERFACE_ID, &[0, 0, 0, 100]);
/// let data = write(MessageType::Data, &[link, Parameter::new(sys::TAG_DATA_1, b"unit")])?;
/// // The ASP takes the link and is lost; a unit comes while the AS waits for another.
/// for event in [
///     Event::Message { asp: 0, message: &up },
///     Event::Message { asp: 0, message: &active },
///     Event::Lost { asp: 0 },
///     Event::LinkMessage { message: &data },
///     Event::Message { asp: 0, message: &up },
/// ] {
///     gateway.handle(&event, &mut hold, &mut orders)?;
/// }
/// let held: Vec<_> = gateway.held(0).collect();
/// assert_eq!((held.len(), held[0].link, held[0].correlation), (1, 100, None));
/// assert_eq!(gateway.unit_bytes(&hold, 0, 0), Some(&b"unit"[..]));
/// // It is the first that the ASP gets when it is back, behind the Ack.
/// let back = Event::Message { asp: 0, message: &active };
/// gateway.handle(&back, &mut hold, &mut orders)?;
/// let (order, message) = orders.messages().nth(1).unwrap();
/// assert_eq!(order.to_string(), "to ASP 0: Data of link 100");
/// assert_eq!(message, data);
/// assert_eq!(gateway.held(0).count(), 0);
/// # Ok::<(), m2ua::Refusal>(())
/// ```
#[derive(Clone, PartialEq, Eq)]
pub struct Hold {
    pub(crate) bytes: Box<[u8; sys::HOLD_BYTES]>,
}

impl Hold {
    /// A hold of zeros.
    pub fn new() -> Hold {
        Hold {
            bytes: Box::new([0; sys::HOLD_BYTES]),
        }
    }

    /// A hold that comes from elsewhere with its state, as from another node; `None` for another number of
    /// bytes than `sys::HOLD_BYTES`.
    pub fn from_bytes(bytes: &[u8]) -> Option<Hold> {
        let mut hold = Hold::new();
        (bytes.len() == sys::HOLD_BYTES).then(|| {
            hold.bytes.copy_from_slice(bytes);
            hold
        })
    }

    /// All its bytes: AS a has those from a * 2,184 on, in eight places of 273. What no unit has put there is
    /// whatever it was before.
    pub fn bytes(&self) -> &[u8; sys::HOLD_BYTES] {
        &self.bytes
    }
}

impl Default for Hold {
    fn default() -> Hold {
        Hold::new()
    }
}

impl fmt::Debug for Hold {
    fn fmt(&self, f: &mut fmt::Formatter<'_>) -> fmt::Result {
        write!(f, "Hold({} bytes)", sys::HOLD_BYTES)
    }
}

/// A unit that an AS holds (Rule 5.21).
#[derive(Clone, Copy, Debug, PartialEq, Eq, Hash)]
pub struct Unit {
    /// `sys::TAG_DATA_1` or `sys::TAG_DATA_2`.
    pub tag: u16,
    /// The length field of its data: 4 more than the unit has bytes.
    pub length: u16,
    /// The interface identifier of the link that it came from.
    pub link: u32,
    /// Its correlation id, where it has one.
    pub correlation: Option<u32>,
}

impl Gateway {
    /// The units that an AS holds, the oldest first; none where it does not wait.
    pub fn held(&self, r#as: usize) -> impl Iterator<Item = Unit> + '_ {
        (0..sys::HELD_MOST).map_while(move |k| self.unit(r#as, k))
    }

    /// The bytes of unit k of an AS, from the hold that goes with this state.
    pub fn unit_bytes<'a>(&self, hold: &'a Hold, r#as: usize, k: usize) -> Option<&'a [u8]> {
        let bytes = usize::from(self.unit(r#as, k)?.length).checked_sub(4)?;
        let start = (r#as * sys::HELD_MOST + k) * sys::HOLD_PLACE;
        hold.bytes.get(start..start + bytes)
    }

    fn unit(&self, r#as: usize, k: usize) -> Option<Unit> {
        let held = &self.state.held;
        let count = usize::from(*held.count.get(r#as)?);
        let i = r#as * sys::HELD_MOST + k;
        (k < count.min(sys::HELD_MOST)).then(|| Unit {
            tag: held.tag[i],
            length: held.length[i],
            link: held.id[i],
            correlation: (held.marked[i] == 1).then_some(held.correlation[i]),
        })
    }
}
