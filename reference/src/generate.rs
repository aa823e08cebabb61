//! Seeded random tables, lists, orders and damaged states, for comparing interpreters.
//!
//! The same seed always gives the same tables, lists, orders and states.

mod author;
mod chooses;
mod codes;
mod context;
mod damage;
mod faults;
mod limits;
mod lists;
mod orders;
mod passed_on;
mod rng;
mod strain;
mod tables;

pub use damage::{damage_names, damage_state, damage_state_by};
pub use limits::limit_table;
pub use lists::{list_of, room_of};
pub use orders::{order, order_bytes, random_order, OrderKind};
pub use rng::Rng;
pub use strain::{limit_cases, strain_state, LimitCase};
pub use tables::{damaged_table, fault_table, noise_table, program_table, random_table};
