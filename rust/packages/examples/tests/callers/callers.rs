// Made from crates/tests_examples/src/callers.rt by rust/erase.
mod addresses;
mod first;
mod lease;
mod link_parameters;
mod listener_version1;
mod member;
mod membership;
mod neighbor;
mod neighbor_cache;
mod ping;
mod querier;
mod report_messages;
mod reporter;
mod resolver;
mod router;
mod router_list;
