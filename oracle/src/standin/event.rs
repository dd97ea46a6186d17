//! `crossterm::event`: names that util.rs imports for its key macros, which nothing here uses.

pub struct KeyCode;

pub struct KeyEvent;

pub struct KeyModifiers;
