//! Generated inputs: shapes, requests, pools, states and region lists, each mostly in order and sometimes not.

pub mod lines;
pub mod pools;
pub mod regions;
pub mod requests;
pub mod shapes;
pub mod states;
