//! Reads records: document 01, section Session, "The record".
use crate::action::{
    Action, Axis, Count, FocusChange, MoveDir1D, MovePosition, OpenTarget, Side, SizeChange,
    TabAction, TabTarget, WindowAction, WindowTarget,
};
use crate::flags::{CloseFlags, OpenFlags, WriteFlags};

/// Bytes that are no record: cut short, with bytes left over, with a number that is not in its shortest form or above
/// 18446744073709551615, with a kind, choice or flag that there is not, or with a name that is empty or not UTF-8.
#[derive(Clone, Copy, Debug, PartialEq, Eq, Hash)]
pub struct NotARecord;

impl std::error::Error for NotARecord {}

impl Action {
    /// Reads a record: the action that it is written of, or none for nothing. All of the bytes must be the record's.
    ///
    /// ```
    /// use pagyolint::{Action, FocusChange, NotARecord, TabAction};
    ///
    /// let focus = Action::Tab(TabAction::Focus(FocusChange::Offset(3)));
    /// assert_eq!(Action::from_record(&[8, 1, 3]), Ok(Some(focus)));
    /// assert_eq!(Action::from_record(&[0]), Ok(None));
    /// assert_eq!(Action::from_record(&[8, 1]), Err(NotARecord)); // cut short
    /// assert_eq!(Action::from_record(&[8, 1, 0x83, 0]), Err(NotARecord)); // 3 has a shorter form
    /// ```
    ///
    /// # Errors
    ///
    /// [`NotARecord`] if no action, nor nothing, is written as these bytes.
    pub fn from_record(record: &[u8]) -> Result<Option<Action>, NotARecord> {
        whole(record, Reader::record).ok_or(NotARecord)
    }
}

/// Reads a name that takes all of the bytes.
pub(crate) fn name(bytes: &[u8]) -> Option<String> {
    whole(bytes, Reader::name)
}

/// Reads something that takes all of the bytes.
fn whole<'a, T>(bytes: &'a [u8], read: fn(&mut Reader<'a>) -> Option<T>) -> Option<T> {
    let mut reader = Reader { rest: bytes };
    let value = read(&mut reader)?;

    match reader.rest {
        [] => Some(value),
        _ => None,
    }
}

/// What is still to be read. Each method takes what it reads from the front, and answers none where it does not stand there.
struct Reader<'a> {
    rest: &'a [u8],
}

impl Reader<'_> {
    fn byte(&mut self) -> Option<u8> {
        let (&byte, rest) = self.rest.split_first()?;
        self.rest = rest;
        Some(byte)
    }

    /// "numbers in groups of seven bits, low group first, 0x80 set on all but the last, shortest form"
    fn number(&mut self) -> Option<u64> {
        let mut number = 0;

        for shift in (0..64).step_by(7) {
            let byte = self.byte()?;
            let group = u64::from(byte & 0x7f);

            // The tenth group has one bit of the 64.
            if shift == 63 && group > 1 {
                return None;
            }

            number |= group << shift;

            if byte < 0x80 {
                // In the shortest form the last group is 0 only if it is the only one.
                return (group > 0 || shift == 0).then_some(number);
            }
        }

        None
    }

    /// A number that picks one of the cases.
    fn one_of<T: Copy>(&mut self, cases: &[T]) -> Option<T> {
        let number = usize::try_from(self.number()?).ok()?;
        cases.get(number).copied()
    }

    /// "A name: byte count, bytes."
    fn name(&mut self) -> Option<String> {
        let count = usize::try_from(self.number()?).ok()?;

        if count == 0 || count > self.rest.len() {
            return None;
        }

        let (name, rest) = self.rest.split_at(count);
        self.rest = rest;
        String::from_utf8(name.to_vec()).ok()
    }

    /// "It starts with a kind: 0 nothing, 1 Close (window target, flags), .."
    fn record(&mut self) -> Option<Option<Action>> {
        let action = match self.number()? {
            0 => return Some(None),
            1 => Action::Window(WindowAction::Close(
                self.window_target()?,
                self.close_flags()?,
            )),
            2 => Action::Window(WindowAction::Resize(
                self.focus()?,
                self.axis()?,
                self.change()?,
            )),
            3 => Action::Window(WindowAction::Open(
                self.open_target()?,
                self.open_flags()?,
                self.axis()?,
                self.side()?,
                self.count()?,
            )),
            4 => Action::Window(WindowAction::Split(
                self.open_target()?,
                self.open_flags()?,
                self.axis()?,
                self.side()?,
                self.count()?,
            )),
            5 => Action::Window(WindowAction::Switch(
                self.open_target()?,
                self.open_flags()?,
            )),
            6 => Action::Window(WindowAction::Write(
                self.window_target()?,
                self.written()?,
                self.write_flags()?,
            )),
            7 => Action::Tab(TabAction::Close(self.tab_target()?, self.close_flags()?)),
            8 => Action::Tab(TabAction::Focus(self.focus()?)),
            9 => Action::Tab(TabAction::Move(self.focus()?)),
            10 => Action::Tab(TabAction::Open(
                self.open_target()?,
                self.open_flags()?,
                self.focus()?,
            )),
            _ => return None,
        };

        Some(Some(action))
    }

    /// "Target: 0 Current, 1 Alternate, 2 Unnamed, 3 and a name."
    fn open_target(&mut self) -> Option<OpenTarget> {
        Some(match self.number()? {
            0 => OpenTarget::Current,
            1 => OpenTarget::Alternate,
            2 => OpenTarget::Unnamed,
            3 => OpenTarget::Name(self.name()?),
            _ => return None,
        })
    }

    /// "Window or tab target: 0 Single and focus, 1 AllBut and focus, 2 All."
    fn window_target(&mut self) -> Option<WindowTarget> {
        Some(match self.number()? {
            0 => WindowTarget::Single(self.focus()?),
            1 => WindowTarget::AllBut(self.focus()?),
            2 => WindowTarget::All,
            _ => return None,
        })
    }

    fn tab_target(&mut self) -> Option<TabTarget> {
        Some(match self.number()? {
            0 => TabTarget::Single(self.focus()?),
            1 => TabTarget::AllBut(self.focus()?),
            2 => TabTarget::All,
            _ => return None,
        })
    }

    /// "Focus: 0 Current; 1 Offset, n; 2 Direction1D, direction, count, wrap (0 or 1); 3 Beginning; 4 End."
    fn focus(&mut self) -> Option<FocusChange> {
        Some(match self.number()? {
            0 => FocusChange::Current,
            1 => FocusChange::Offset(self.number()?),
            2 => FocusChange::Direction1D(
                self.direction()?,
                self.count()?,
                self.one_of(&[false, true])?,
            ),
            3 => FocusChange::Position(MovePosition::Beginning),
            4 => FocusChange::Position(MovePosition::End),
            _ => return None,
        })
    }

    /// "Direction and side: 0 Next, 1 Previous."
    fn direction(&mut self) -> Option<MoveDir1D> {
        self.one_of(&[MoveDir1D::Next, MoveDir1D::Previous])
    }

    fn side(&mut self) -> Option<Side> {
        self.one_of(&[Side::Next, Side::Previous])
    }

    /// "Axis: 0 horizontal, 1 vertical."
    fn axis(&mut self) -> Option<Axis> {
        self.one_of(&[Axis::Horizontal, Axis::Vertical])
    }

    /// "Count: 0 Contextual, or 1 and n."
    fn count(&mut self) -> Option<Count> {
        Some(match self.number()? {
            0 => Count::Contextual,
            1 => Count::Exact(self.number()?),
            _ => return None,
        })
    }

    /// "Change: 0 Exact, 1 Increase, 2 Decrease, then n."
    fn change(&mut self) -> Option<SizeChange> {
        let change = self.one_of(&[
            SizeChange::Exact,
            SizeChange::Increase,
            SizeChange::Decrease,
        ])?;
        Some(change(self.number()?))
    }

    /// "0 or 1 and a name"
    fn written(&mut self) -> Option<Option<String>> {
        Some(match self.number()? {
            0 => None,
            1 => Some(self.name()?),
            _ => return None,
        })
    }

    /// "Flags add up: close QUIT 1, FORCE 2; open FORCE 1, READONLY 2; write FORCE 1."
    fn close_flags(&mut self) -> Option<CloseFlags> {
        CloseFlags::from_bits(self.number()?)
    }

    fn open_flags(&mut self) -> Option<OpenFlags> {
        OpenFlags::from_bits(self.number()?)
    }

    fn write_flags(&mut self) -> Option<WriteFlags> {
        WriteFlags::from_bits(self.number()?)
    }
}
