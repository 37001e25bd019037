//! Something that answers both calls over lent outputs; first of all the plain Rust itself.

use crate::cases::{Pruned, Rewritten};
use crate::prune::{PruneCall, prune};
use crate::rewrite::{RewriteCall, answer_word, rewrite};
use crate::rules::Rules;

pub trait Subject {
    fn rewrite(&self, call: &RewriteCall) -> Rewritten;
    fn prune(&self, call: &PruneCall) -> Pruned;
}

/// The plain Rust, by sound rules or with a mistake.
#[derive(Clone, Copy, Debug, Default)]
pub struct Plain {
    pub rules: Rules,
}

impl Subject for Plain {
    fn rewrite(&self, call: &RewriteCall) -> Rewritten {
        let result = rewrite(&self.rules, call);
        let mut lent = Rewritten::lent(call.rooms);
        lent.answer = answer_word(&result);
        if let Ok(outputs) = result {
            front(&mut lent.table, &outputs.table);
            front(&mut lent.pool, &outputs.pool);
            front(&mut lent.statistics, &outputs.statistics);
            front(&mut lent.guarantees, &outputs.guarantees);
        }
        lent
    }

    fn prune(&self, call: &PruneCall) -> Pruned {
        let mut lent = Pruned::lent(call.flag_room);
        match prune(&self.rules, call) {
            Err(refusal) => lent.result = refusal as u64,
            Ok(flags) => front(&mut lent.flags, &flags),
        }
        lent
    }
}

/// Writes the counted front; the rest keeps what it held. Only a mistake could write too much.
pub fn front(lent: &mut [u8], written: &[u8]) {
    let length = written.len().min(lent.len());
    lent[..length].copy_from_slice(&written[..length]);
}
