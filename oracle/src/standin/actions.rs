//! `crate::actions`: the actions that the handlers make.
use super::editing::application::ApplicationInfo;
use super::prelude::*;

/// An action on a window.
#[derive(Clone, Debug, Eq, PartialEq)]
pub enum WindowAction<I: ApplicationInfo> {
    Close(WindowTarget, CloseFlags),
    Open(OpenTarget<I::WindowId>, OpenFlags, Axis, MoveDir1D, Count),
    Resize(FocusChange, Axis, SizeChange),
    Split(OpenTarget<I::WindowId>, OpenFlags, Axis, MoveDir1D, Count),
    Switch(OpenTarget<I::WindowId>, OpenFlags),
    Write(WindowTarget, Option<String>, WriteFlags),
}

/// An action on a tab.
#[derive(Clone, Debug, Eq, PartialEq)]
pub enum TabAction<I: ApplicationInfo> {
    Close(TabTarget, CloseFlags),
    Focus(FocusChange),
    Move(FocusChange),
    Open(OpenTarget<I::WindowId>, OpenFlags, FocusChange),
}

/// An action.
#[derive(Clone, Debug, Eq, PartialEq)]
pub enum Action<I: ApplicationInfo> {
    Tab(TabAction<I>),
    Window(WindowAction<I>),
}

impl<I: ApplicationInfo> From<TabAction<I>> for Action<I> {
    fn from(action: TabAction<I>) -> Self {
        Action::Tab(action)
    }
}

impl<I: ApplicationInfo> From<WindowAction<I>> for Action<I> {
    fn from(action: WindowAction<I>) -> Self {
        Action::Window(action)
    }
}
