//! Who comes by SCTP: an ASP is known by where its association comes from, `from` in its line of the plan.
//!
//! A peer names its addresses itself. One that has not answered yet proves nothing: anybody could name it.
//! So an association is an ASP's by an address that has answered; the one that the association was made
//! with has.
use crate::daemon::Daemon;
use crate::kernel;
use crate::transport::Association;
use std::io::ErrorKind;
use std::net::SocketAddr;
use std::time::{Duration, Instant};

/// An association that names an address of an ASP, from which no answer has come so far.
pub struct Held {
    association: kernel::Association,
    until: Instant,
}

/// At most so many are held.
const MOST: usize = 16;
/// How often is looked whether an answer has come.
pub const ASK_AGAIN: Duration = Duration::from_millis(20);

impl Daemon {
    /// An association begins whose peer has these addresses, or is refused.
    pub(crate) fn arrives(&mut self, peer: &[SocketAddr], association: Association) {
        match self.asp_from(peer) {
            Some(p) => self.begin(p, association, &format!(", {}", listed(peer))),
            None => self.refuse(peer, association),
        }
    }

    fn asp_from(&self, peer: &[SocketAddr]) -> Option<usize> {
        let is_from =
            |at: &SocketAddr, p: usize| self.plan.asps[p].from.iter().any(|from| from.is(*at));
        (0..self.plan.asps.len()).find(|&p| peer.iter().any(|at| is_from(at, p)))
    }

    fn refuse(&mut self, peer: &[SocketAddr], association: Association) {
        let (stranger, peer) = (self.outside.stranger(), listed(peer));
        self.outside.complain(
            stranger,
            format_args!(
                "sctp: an association of {peer}, where no ASP of the plan is from, is refused"
            ),
        );
        association.close(true);
    }

    /// Peers connect by the kernel's SCTP.
    pub(crate) fn accept_kernel(&mut self) {
        let until = self.outside.now + self.options.dead;
        while let Some(next) = self.opened.kernel.as_ref().map(|l| l.accept()) {
            match next {
                Ok(association) => self.looked_at(Held { association, until }),
                Err(e) if e.kind() == ErrorKind::WouldBlock => return,
                Err(e) if e.kind() == ErrorKind::ConnectionAborted => {}
                Err(e) => return self.not_let_in("sctp", &e),
            }
        }
    }

    /// Those that were held, looked at again.
    pub(crate) fn serve_held(&mut self) {
        for held in std::mem::take(&mut self.held) {
            self.looked_at(held);
        }
    }

    /// Takes an association, holds it while an answer may come, or refuses it.
    fn looked_at(&mut self, held: Held) {
        let all = held.association.peer();
        let (confirmed, named): (Vec<SocketAddr>, Vec<SocketAddr>) = all
            .iter()
            .partition(|at| held.association.is_confirmed(**at));
        if let Some(p) = self.asp_from(&confirmed) {
            let from = format!(", {}", listed(&all));
            return self.begin(p, Association::Kernel(held.association), &from);
        }
        let may_come = self.asp_from(&named).is_some() && self.outside.now < held.until;
        if may_come && self.held.len() < MOST {
            return self.held.push(held);
        }
        self.refuse(&all, Association::Kernel(held.association));
    }
}

fn listed(addresses: &[SocketAddr]) -> String {
    let words: Vec<String> = addresses.iter().map(|at| at.to_string()).collect();
    words.join(", ")
}
