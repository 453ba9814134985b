//! The program on files of a temporary folder: every command, its refusals, and what stands in the files afterwards.

mod files;
mod folder;
mod images;
mod kinds;
mod names;
mod notch;
mod pasted;
mod shell;
mod text;
