//! The macro that makes an enum of a table: a number, a name and a text for each member.

/// Makes an enum with the members of a table, with the ways between member, number and text.
macro_rules! table {
    (
        $(#[$about:meta])*
        $name:ident: $number:ty {
            $($(#[$note:meta])* $member:ident = $value:literal, $text:literal;)*
        }
    ) => {
        $(#[$about])*
        #[derive(Clone, Copy, Debug, PartialEq, Eq, PartialOrd, Ord, Hash)]
        pub enum $name {
            $(
                #[doc = concat!($value, ": `", $text, "`")]
                #[doc = ""]
                $(#[$note])*
                $member = $value,
            )*
        }

        impl $name {
            /// Every member, by rising number.
            pub const ALL: &'static [$name] = &[$($name::$member),*];

            /// The number that stands for the member.
            pub const fn number(self) -> $number {
                self as $number
            }

            /// The member of a number, if there is one.
            pub const fn from_number(number: $number) -> Option<$name> {
                match number {
                    $($value => Some($name::$member),)*
                    _ => None,
                }
            }

            /// The member's text, which is also what it is displayed as.
            pub const fn text(self) -> &'static str {
                match self {
                    $($name::$member => $text,)*
                }
            }
        }

        impl std::fmt::Display for $name {
            fn fmt(&self, f: &mut std::fmt::Formatter<'_>) -> std::fmt::Result {
                f.pad(self.text())
            }
        }
    };
}
