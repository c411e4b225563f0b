//! Why a call was refused.

use core::fmt;

macro_rules! errors {
    ($($name:ident = $number:literal, $text:literal;)*) => {
        /// Why a call was refused: the statuses of `mscp.h` below 0, by their names and numbers there. A call that is
        /// refused has changed nothing.
        #[derive(Clone, Copy, Debug, PartialEq, Eq, Hash)]
        #[non_exhaustive]
        #[repr(i32)]
        pub enum Error {
            $(#[doc = $text] $name = $number,)*
        }

        impl Error {
            /// All of them, from -1 down.
            pub const ALL: &'static [Error] = &[$(Error::$name,)*];

            /// That of a status of C.
            #[must_use]
            pub const fn of_status(status: i32) -> Option<Error> {
                match status {
                    $($number => Some(Error::$name),)*
                    _ => None,
                }
            }

            /// What it says, for people.
            #[must_use]
            pub const fn text(self) -> &'static str {
                match self {
                    $(Error::$name => $text,)*
                }
            }
        }
    };
}

errors! {
    Short = -1, "a message of under 12 bytes";
    Long = -2, "a message of over 64 bytes";
    NoCredit = -3, "no credit is free";
    LastCredit = -4, "the last credit is kept for commands that are answered at once";
    Doubled = -5, "the reference number is outstanding";
    NotBegun = -6, "the command isn't begun";
    BadStatus = -7, "no status of a block";
    Unreadable = -8, "the bytes are no end";
    Unknown = -9, "the end of no outstanding command";
    NotMade = -10, "nothing was made in the memory";
    Made = -11, "something was made in the memory already";
    NoHandle = -12, "no handle, or one of another version";
    NoMemory = -13, "the handle or its memory is NULL";
    Misaligned = -14, "the memory is misaligned";
    Small = -15, "the memory is too small";
    Cut = -16, "fewer bytes than the envelope says";
    OtherConnection = -17, "a message of another connection";
    BadKind = -18, "a message of no known type";
    BadPicker = -20, "no picker of this number";
    ZeroTrack = -21, "a track of no blocks";
    ZeroGroup = -22, "a group of no tracks";
    ZeroCylinder = -23, "a cylinder of no groups";
    ZeroSize = -24, "a unit of no blocks";
    ManyUnits = -25, "more than 16 units";
    UnitsFall = -26, "units whose numbers don't rise";
    NoUnits = -27, "no unit";
    BadCredits = -28, "credits that aren't 2 to 64, or over 64 of both connections";
    BadLongest = -29, "a longest transfer that isn't 1 to 8388608 blocks";
    BadTimeout = -30, "a timeout that isn't 1 to 255 seconds";
    BadBound = -31, "a bound of figures that doesn't fit 32 bits";
    BadConnection = -32, "no connection of this number";
    BadBus = -33, "no bus of this number, or another one";
    BadHostCredits = -34, "a port's host without credits, or with as many as the first connection";
    BadOutcome = -35, "no outcome of an action";
    Unasked = -36, "the port didn't want what was reported";
    UnknownUnit = -37, "no unit of this number";
    BadSize = -38, "a volume without blocks, or with more than its unit";
    SavedLength = -40, "saved bytes that aren't as many as they say";
    SavedMagic = -41, "bytes that don't begin as saved ones";
    SavedVersion = -42, "saved bytes of an unknown version";
    SavedUnits = -43, "saved units that no controller has";
    SavedLimits = -44, "saved limits that nothing has";
    SavedHeads = -45, "a saved head on no cylinder";
    SavedCredits = -46, "more saved commands and ends than credits cover";
    SavedCommand = -47, "a saved command that would not wait";
    SavedDoubled = -48, "two saved commands of one number";
    SavedSteps = -49, "a saved command with no steps left, or two in service";
    SavedPassed = -50, "a saved command that was passed too often";
    SavedEnds = -51, "a saved end without an endcode";
    SavedBegun = -52, "a saved command that may not be begun";
    SavedPicker = -53, "no picker of the saved number";
    SavedForm = -54, "bytes that nothing is saved as";
    SavedPoll = -55, "a saved poll that no host has";
    SavedSize = -56, "a saved port with a size that none has";
}

impl Error {
    /// Its status of C.
    #[must_use]
    pub const fn status(self) -> i32 {
        self as i32
    }
}

impl fmt::Display for Error {
    fn fmt(&self, to: &mut fmt::Formatter<'_>) -> fmt::Result {
        to.write_str(self.text())
    }
}

#[cfg(has_core_error)]
impl core::error::Error for Error {}

#[cfg(all(feature = "std", not(has_core_error)))]
impl std::error::Error for Error {}

/// A status that a call of C answered, if it is no fault.
pub(crate) fn checked(status: i32) -> Result<i32, Error> {
    match Error::of_status(status) {
        Some(error) => Err(error),
        None => Ok(status),
    }
}

/// A status that no fault can be: what a safe type can't do wrong.
pub(crate) fn never_refused(status: i32) -> i32 {
    debug_assert!(status >= 0, "libmscp answers {status}");
    status
}
