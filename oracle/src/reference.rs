//! The reference's own text, as build.rs cut it, beside the shims it needs. `calls` is the way in.
#![allow(dead_code, unused_mut, unused_variables, unused_assignments, clippy::all)]

/// crates/fiber-types
pub mod fiber_types {
    use crate::shim::ckb_hash::{self, blake2b_256};
    use crate::shim::{hex, Bytes, CellOutput, CompactSignature, Privkey, Script};
    use sha2::{Digest, Sha256};
    use stub_derive::{serde_as, Deserialize, Serialize};

    include!(concat!(env!("OUT_DIR"), "/fiber_types.rs"));
}

/// crates/fiber-lib/src/utils/arithmetic.rs
mod arithmetic {
    use std::error::Error;
    use std::fmt::{self, Display, Formatter};

    include!(concat!(env!("OUT_DIR"), "/arithmetic.rs"));
}

/// crates/fiber-lib/src: watchtower/actor.rs, watchtower/store.rs, fiber/onchain_tlc_reconcile.rs
mod fiber_lib {
    use super::arithmetic::{checked_add_u64, checked_mul_u64, checked_sub_usize, ArithmeticError};
    use super::fiber_types::*;
    use crate::shim::*;
    use crate::shim::{anyhow, debug, warn};

    include!(concat!(env!("OUT_DIR"), "/lib_parts.rs"));
    include!(concat!(env!("OUT_DIR"), "/actor.rs"));

    /// The reference's condition, under a name.
    fn due_condition(
        cell_header_epoch: EpochNumberWithFraction,
        delay: EpochNumberWithFraction,
        current_epoch: EpochNumberWithFraction,
    ) -> bool {
        include!(concat!(env!("OUT_DIR"), "/due.rs"))
    }

    /// Who calls `build_settlement_tx`, and the scan before it.
    mod caller {
        use super::{HashAlgorithm, *};
        use crate::shim::error;
        use std::collections::{HashMap, HashSet};
        use stub_derive::{Deserialize, Serialize};

        include!(concat!(env!("OUT_DIR"), "/caller.rs"));

        pub type HandedOn = (EpochNumberWithFraction, Option<SettlementWitness>, Vec<TrackedSettlementTlc>);

        /// The scan of one node's transactions, then the caller's statements on a live cell beside another node, in
        /// a loop as there: where they `continue`, nothing is handed on.
        #[allow(clippy::never_loop, clippy::too_many_arguments)]
        pub fn on_live_cell<S: WatchtowerStore>(
            cell: Cell,
            prefix: &Script,
            first_commitment_tx_out_point: OutPoint,
            tracked: Vec<TrackedSettlementTlc>,
            scanned: &CkbRpcClient,
            ckb_client: &CkbRpcClient,
            store: &S,
            channel_data: &ChannelData,
        ) -> Option<HandedOn> {
            let settlement_scan = scan_watched_settlement_txs(
                SearchKey,
                scanned,
                prefix,
                first_commitment_tx_out_point.clone(),
                tracked,
                &channel_data.channel_id,
                store,
                &NodeId::local(),
                channel_data.channel_features,
            );
            for cell in [cell] {
                return include!(concat!(env!("OUT_DIR"), "/caller_statements.rs"));
            }
            None
        }
    }

    pub mod calls;
}
pub use fiber_lib::calls;

/// Which lines of which file were taken.
pub const SLICES: &str = include_str!(concat!(env!("OUT_DIR"), "/slices.tsv"));

/// The text taken that answers in the comparison.
pub const SLICED: &str = include_str!(concat!(env!("OUT_DIR"), "/sliced.txt"));

/// The text taken of who calls it.
pub const SLICED_CALLER: &str = include_str!(concat!(env!("OUT_DIR"), "/sliced_caller.txt"));

/// The tokens of what answers: file, item or member, number, first byte, byte behind it.
pub const TOKENS: &str = include_str!(concat!(env!("OUT_DIR"), "/tokens.tsv"));
