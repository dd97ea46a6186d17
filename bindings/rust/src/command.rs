//! The commands that a word can lead to.

/// A command, by its number and name in the order of modalkit's `default_cmds`.
///
/// ```
/// use pagyolint::Command;
///
/// assert_eq!(Command::Vertical.number(), 25);
/// assert_eq!(Command::Vertical.name(), "vertical");
/// assert_eq!(Command::from_name("vertical"), Some(Command::Vertical));
/// assert_eq!(Command::from_name("vert"), None); // an alias that is shipped, and no name
/// ```
#[derive(Clone, Copy, Debug, PartialEq, Eq, PartialOrd, Ord, Hash)]
pub enum Command {
    /// `!`; refused by 11.
    Filter = 0,
    /// `&`; refused by 11.
    SubstituteRepeat = 1,
    /// `read`; refused by 11.
    Read = 2,
    /// `print`; refused by 11.
    Print = 3,
    /// `substitute`; refused by 11.
    Substitute = 4,
    /// `close`: close a window.
    Close = 5,
    /// `only`: close all windows but one.
    Only = 6,
    /// `quit`: quit a window.
    Quit = 7,
    /// `quitall`: close all tabs.
    QuitAll = 8,
    /// `resize`: resize a window.
    Resize = 9,
    /// `split`: split the window.
    Split = 10,
    /// `vsplit`: split the window vertically.
    VSplit = 11,
    /// `view`: open a file read-only.
    View = 12,
    /// `tab`, a prefix: what the next command opens is opened in a new tab.
    Tab = 13,
    /// `tabclose`: close a tab.
    TabClose = 14,
    /// `tabedit`: open a new tab.
    TabEdit = 15,
    /// `tabmove`: move a tab to a different position.
    TabMove = 16,
    /// `tabnext`: focus a following tab.
    TabNext = 17,
    /// `tabonly`: close all tabs but one.
    TabOnly = 18,
    /// `tabprevious`: focus a previous tab.
    TabPrevious = 19,
    /// `tabfirst`: focus the first tab.
    TabFirst = 20,
    /// `tablast`: focus the last tab.
    TabLast = 21,
    /// `write`: write a window.
    Write = 22,
    /// `wall`: write all windows.
    Wall = 23,
    /// `horizontal`, a prefix: the next command opens its window horizontally.
    Horizontal = 24,
    /// `vertical`, a prefix: the next command opens its window vertically.
    Vertical = 25,
    /// `aboveleft`, a prefix: the next command opens its window before the current one.
    AboveLeft = 26,
    /// `belowright`, a prefix: the next command opens its window after the current one.
    BelowRight = 27,
}

/// The names, each at the place of its command's number.
const NAMES: [&str; 28] = [
    "!",
    "&",
    "read",
    "print",
    "substitute",
    "close",
    "only",
    "quit",
    "quitall",
    "resize",
    "split",
    "vsplit",
    "view",
    "tab",
    "tabclose",
    "tabedit",
    "tabmove",
    "tabnext",
    "tabonly",
    "tabprevious",
    "tabfirst",
    "tablast",
    "write",
    "wall",
    "horizontal",
    "vertical",
    "aboveleft",
    "belowright",
];

impl Command {
    /// All commands, each at the place of its number.
    pub const ALL: [Command; 28] = [
        Command::Filter,
        Command::SubstituteRepeat,
        Command::Read,
        Command::Print,
        Command::Substitute,
        Command::Close,
        Command::Only,
        Command::Quit,
        Command::QuitAll,
        Command::Resize,
        Command::Split,
        Command::VSplit,
        Command::View,
        Command::Tab,
        Command::TabClose,
        Command::TabEdit,
        Command::TabMove,
        Command::TabNext,
        Command::TabOnly,
        Command::TabPrevious,
        Command::TabFirst,
        Command::TabLast,
        Command::Write,
        Command::Wall,
        Command::Horizontal,
        Command::Vertical,
        Command::AboveLeft,
        Command::BelowRight,
    ];

    /// The command's number, 0 to 27.
    pub fn number(self) -> u64 {
        self as u64
    }

    /// The command's name.
    pub fn name(self) -> &'static str {
        NAMES[self as usize]
    }

    /// The command that has the number; none above 27.
    pub fn from_number(number: u64) -> Option<Command> {
        Command::ALL
            .into_iter()
            .find(|command| command.number() == number)
    }

    /// The command that has the name. Aliases are not looked at.
    pub fn from_name(name: &str) -> Option<Command> {
        Command::ALL
            .into_iter()
            .find(|command| command.name() == name)
    }
}

impl From<Command> for u64 {
    fn from(command: Command) -> u64 {
        command.number()
    }
}
