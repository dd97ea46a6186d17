//! `crate::key`: a terminal key, of which util.rs asks the character.
use super::event::KeyModifiers;

pub struct TerminalKey;

impl TerminalKey {
    pub fn get_char_mods(&self) -> Option<(char, KeyModifiers)> {
        unimplemented!("keys")
    }
}
