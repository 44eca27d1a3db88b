//! What routes that were accepted rest on: the elements by which maps let them pass.

use crate::links::is_taken;
use crate::model::*;
use crate::paths::NO_COMMUNITIES;

const NOTHING: Decided = Decided { clause: NONE, prefix_entry: NONE, community_entry: NONE };

impl Network {
    /// What is sent by a session of a prefix, if it is accepted there and was chosen.
    pub fn exchange(&self, session: u32, prefix: u32) -> Option<Exchange> {
        let link = self.stable.links.get(session as usize)?;
        let best = self.chosen(link.peer, prefix).first()?;
        let (policies, sets) = (&self.stable.policies, &self.stable.communities);
        let mut communities = if best.communities == NO_COMMUNITIES { Vec::new() } else { sets.members(best.communities).to_vec() };
        let sent_by = match link.map_out {
            NONE => NOTHING,
            map => policies.decided(self, map, prefix, &mut communities, sets)?,
        };
        if !link.send_community {
            communities.clear();
        }
        let own = !link.internal || link.next_hop_self || matches!(best.from, RouteSource::Network(_));
        let hop = if own { link.hop } else { best.hop };
        if !is_taken(self, link.router, hop) {
            return None;
        }
        let accepted_by = match link.map_in {
            NONE => NOTHING,
            map => policies.decided(self, map, prefix, &mut communities, sets)?,
        };
        Some(Exchange { hop, sent_by, accepted_by })
    }
}
