//! The record of an action, as document 01 fixes it, and the numbers and names it is made of.
use crate::actions::{Action, TabAction, WindowAction};
use crate::editing::application::EmptyInfo;
use crate::prelude::*;

/// Writes a number: groups of seven bits, low group first, 0x80 set on all but the last.
pub fn number(out: &mut Vec<u8>, mut n: u64) {
    while n >= 0x80 {
        out.push(n as u8 | 0x80);
        n >>= 7;
    }

    out.push(n as u8);
}

/// Writes a name: its byte count and its bytes.
pub fn name(out: &mut Vec<u8>, text: &str) {
    number(out, text.len() as u64);
    out.extend_from_slice(text.as_bytes());
}

/// Writes the record of an action, or of nothing.
pub fn record(out: &mut Vec<u8>, action: Option<&Action<EmptyInfo>>) {
    match action {
        None => out.push(0),
        Some(Action::Window(action)) => window_action(out, action),
        Some(Action::Tab(action)) => tab_action(out, action),
    }
}

fn window_action(out: &mut Vec<u8>, action: &WindowAction<EmptyInfo>) {
    match action {
        WindowAction::Close(target, flags) => {
            out.push(1);
            window_target(out, target);
            number(out, flags.bits().into());
        }
        WindowAction::Resize(change, along, size) => {
            out.push(2);
            focus(out, change);
            axis(out, *along);
            size_change(out, size);
        }
        WindowAction::Open(what, flags, along, side, n) => {
            out.push(3);
            open_target(out, what);
            number(out, flags.bits().into());
            axis(out, *along);
            direction(out, *side);
            count(out, n);
        }
        WindowAction::Split(what, flags, along, side, n) => {
            out.push(4);
            open_target(out, what);
            number(out, flags.bits().into());
            axis(out, *along);
            direction(out, *side);
            count(out, n);
        }
        WindowAction::Switch(what, flags) => {
            out.push(5);
            open_target(out, what);
            number(out, flags.bits().into());
        }
        WindowAction::Write(target, file, flags) => {
            out.push(6);
            window_target(out, target);

            match file {
                None => out.push(0),
                Some(file) => {
                    out.push(1);
                    name(out, file);
                }
            }

            number(out, flags.bits().into());
        }
    }
}

fn tab_action(out: &mut Vec<u8>, action: &TabAction<EmptyInfo>) {
    match action {
        TabAction::Close(target, flags) => {
            out.push(7);
            tab_target(out, target);
            number(out, flags.bits().into());
        }
        TabAction::Focus(change) => {
            out.push(8);
            focus(out, change);
        }
        TabAction::Move(change) => {
            out.push(9);
            focus(out, change);
        }
        TabAction::Open(what, flags, change) => {
            out.push(10);
            open_target(out, what);
            number(out, flags.bits().into());
            focus(out, change);
        }
    }
}

fn open_target<W>(out: &mut Vec<u8>, target: &OpenTarget<W>) {
    match target {
        OpenTarget::Current => out.push(0),
        OpenTarget::Alternate => out.push(1),
        OpenTarget::Unnamed => out.push(2),
        OpenTarget::Name(text) => {
            out.push(3);
            name(out, text);
        }
        OpenTarget::Application(_) => unreachable!("no handler makes an application's target"),
    }
}

fn window_target(out: &mut Vec<u8>, target: &WindowTarget) {
    match target {
        WindowTarget::Single(change) => {
            out.push(0);
            focus(out, change);
        }
        WindowTarget::AllBut(change) => {
            out.push(1);
            focus(out, change);
        }
        WindowTarget::All => out.push(2),
    }
}

fn tab_target(out: &mut Vec<u8>, target: &TabTarget) {
    match target {
        TabTarget::Single(change) => {
            out.push(0);
            focus(out, change);
        }
        TabTarget::AllBut(change) => {
            out.push(1);
            focus(out, change);
        }
        TabTarget::All => out.push(2),
    }
}

fn focus(out: &mut Vec<u8>, change: &FocusChange) {
    match change {
        FocusChange::Current => out.push(0),
        FocusChange::Offset(n, flag) => {
            assert!(!flag, "the flag of Offset is always false");
            out.push(1);
            exact(out, n);
        }
        FocusChange::Direction1D(towards, n, wrap) => {
            out.push(2);
            direction(out, *towards);
            count(out, n);
            out.push(u8::from(*wrap));
        }
        FocusChange::Position(MovePosition::Beginning) => out.push(3),
        FocusChange::Position(MovePosition::End) => out.push(4),
    }
}

/// Writes a direction or a side.
pub fn direction(out: &mut Vec<u8>, towards: MoveDir1D) {
    out.push(match towards {
        MoveDir1D::Next => 0,
        MoveDir1D::Previous => 1,
    });
}

fn axis(out: &mut Vec<u8>, along: Axis) {
    out.push(match along {
        Axis::Horizontal => 0,
        Axis::Vertical => 1,
    });
}

fn size_change(out: &mut Vec<u8>, change: &SizeChange) {
    let (kind, n) = match change {
        SizeChange::Exact(n) => (0, n),
        SizeChange::Increase(n) => (1, n),
        SizeChange::Decrease(n) => (2, n),
    };

    out.push(kind);
    exact(out, n);
}

fn count(out: &mut Vec<u8>, n: &Count) {
    match n {
        Count::Contextual => out.push(0),
        Count::Exact(_) => {
            out.push(1);
            exact(out, n);
        }
    }
}

/// Writes the number of an exact count.
pub fn exact(out: &mut Vec<u8>, n: &Count) {
    match n {
        Count::Exact(n) => number(out, *n as u64),
        Count::Contextual => unreachable!("a contextual count where the record has a number"),
    }
}
