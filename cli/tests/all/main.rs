//! The program as a whole, on files: what is cheap to try here. `runs/box` holds
//! it to the second program.

mod calls;
mod files;
mod link;
mod pages;
mod room;
mod sessions;
