// Made from crates/reassembly/src/options.rt by rust/erase.
//! Hop-by-hop options that are kept.

use crate::answer::Fault;
use crate::fragment::Fragment;
#[allow(unused_imports)]
use rattle_std::prelude::*;

// What is kept of the options in front of a fragment: those of the one at offset 0.
pub(crate) fn kept_options(fragment: &Fragment<'_>) -> Result<Option<Vec<u8>>, Fault> {
    if fragment.frag_offset != 0 {
        return Ok(None);
    }
    copied(fragment.hop_by_hop)
}

// Options of their own memory, where there are any.
pub(crate) fn copied(options: Option<&[u8]>) -> Result<Option<Vec<u8>>, Fault> {
    let Some(options) = options else {
        return Ok(None);
    };
    let mut kept = Vec::new();
    if kept.extend_from_slice(options).is_err() {
        return Err(Fault::Memory);
    }
    Ok(Some(kept))
}
