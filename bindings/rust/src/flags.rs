//! Flags of actions, with their named constants. The bits are those of the record.
use std::ops::BitOr;

/// Declares a type of flags: its constants, and the methods that all of them have.
macro_rules! flags {
    ($(#[$about:meta])* $flags:ident { $($(#[$what:meta])* $name:ident = $bits:expr;)* }) => {
        $(#[$about])*
        #[derive(Clone, Copy, Debug, PartialEq, Eq, Hash)]
        pub struct $flags {
            bits: u64,
        }

        impl $flags {
            $($(#[$what])* pub const $name: $flags = $flags { bits: $bits };)*

            /// All flags that there are.
            const ALL: u64 = 0 $(| $flags::$name.bits)*;

            /// The number that the record has for these flags.
            pub fn bits(self) -> u64 {
                self.bits
            }

            /// The flags that the record has this number for; none where a bit is no flag.
            pub fn from_bits(bits: u64) -> Option<$flags> {
                match bits & !$flags::ALL {
                    0 => Some($flags { bits }),
                    _ => None,
                }
            }

            /// Whether all flags of `other` are set here.
            pub fn contains(self, other: $flags) -> bool {
                self.bits & other.bits == other.bits
            }
        }

        impl BitOr for $flags {
            type Output = $flags;

            fn bitor(self, other: $flags) -> $flags {
                $flags { bits: self.bits | other.bits }
            }
        }
    };
}

flags! {
    /// Flags of closing windows and tabs.
    ///
    /// ```
    /// use pagyolint::CloseFlags;
    ///
    /// assert_eq!(CloseFlags::QUIT | CloseFlags::FORCE, CloseFlags::FQ);
    /// assert!(CloseFlags::FQ.contains(CloseFlags::QUIT));
    /// assert_eq!(CloseFlags::from_bits(4), None);
    /// ```
    CloseFlags {
        /// No flag.
        NONE = 0;
        /// The command quits, as `quit` and `only` do and `close` does not.
        QUIT = 1;
        /// The command had a bang.
        FORCE = 2;
        /// QUIT with FORCE.
        FQ = 3;
    }
}

flags! {
    /// Flags of opening a window or tab.
    OpenFlags {
        /// No flag.
        NONE = 0;
        /// The command had a bang.
        FORCE = 1;
        /// Open to read only.
        READONLY = 2;
    }
}

flags! {
    /// Flags of writing windows.
    WriteFlags {
        /// No flag.
        NONE = 0;
        /// The command had a bang.
        FORCE = 1;
    }
}
