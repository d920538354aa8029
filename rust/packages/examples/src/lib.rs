// Made from crates/examples/src/lib.rt by rust/erase.
//! Small proved programs, one for each kind of user, which call the library by its public contracts alone.

pub mod addresses;
pub mod first;
pub mod lease;
pub mod link_parameters;
pub mod listener;
pub mod member;
pub mod membership;
pub mod neighbor;
pub mod neighbor_cache;
pub mod ping;
pub mod querier;
pub mod ranked;
pub mod reporter;
pub mod resolver;
pub mod router;
pub mod router_list;
pub mod timed_list;
pub mod unreachable;
