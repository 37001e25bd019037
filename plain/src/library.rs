//! The proved library as a subject, by the host package's calls over lent buffers.

use filughjosa::raw::{PruneInput, RewriteInput, RewriteOutput, prune_into, rewrite_into};

use crate::cases::{Pruned, Rewritten};
use crate::prune::PruneCall;
use crate::rewrite::RewriteCall;
use crate::subject::Subject;

#[derive(Clone, Copy, Debug, Default)]
pub struct Library;

impl Subject for Library {
    fn rewrite(&self, call: &RewriteCall) -> Rewritten {
        let mut lent = Rewritten::lent(call.rooms);
        let output = RewriteOutput {
            table: &mut lent.table,
            pool: &mut lent.pool,
            statistics: &mut lent.statistics,
            guarantees: &mut lent.guarantees,
        };
        lent.answer = rewrite_into(rewrite_input(call), output);
        lent
    }

    fn prune(&self, call: &PruneCall) -> Pruned {
        let mut lent = Pruned::lent(call.flag_room);
        lent.result = prune_into(prune_input(call), &mut lent.flags);
        lent
    }
}

pub fn rewrite_input<'a>(call: &RewriteCall<'a>) -> RewriteInput<'a> {
    RewriteInput { schema: call.schema, predicate: call.predicate, pool: call.pool, list_limit: call.list_limit }
}

pub fn prune_input<'a>(call: &PruneCall<'a>) -> PruneInput<'a> {
    PruneInput {
        schema: call.schema,
        table: call.table,
        table_pool: call.table_pool,
        statistics: call.statistics,
        guarantees: call.guarantees,
        containers: call.containers,
        grid: call.grid,
        cell_pool: call.cell_pool,
        answers: call.answers,
    }
}
