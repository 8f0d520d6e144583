//! All tests of the second program, one file for each of its modules.

use second::calls;

mod generator;
mod inputs;
mod standards;

mod bench;
mod blank;
mod cards;
mod easy_to_get_wrong;
mod exchange;
mod expand;
mod failure;
mod from_random;
mod grow;
mod hash;
mod line;
mod long;
mod margins;
mod matrix;
mod message;
mod noise;
mod packing;
mod polynomial;
mod products;
mod program;
mod published;
mod rack;
mod reconcile_bcns;
mod reconcile_frodo;
mod reconcile_newhope;
mod refusals;
mod rows;
mod schemes;
mod session;
mod settings;
mod signed;
mod slack;
mod trace;
mod transform;
mod vectors;
