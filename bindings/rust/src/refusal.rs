//! Why a call was refused.

use crate::ffi::disruptor_name_at;
use std::fmt;

macro_rules! refusals {
    ($($name:ident = $number:literal, $why:literal;)*) => {
        /// Why a call was refused. A refused call changes nothing: it has claimed, shown and completed no event, and not called the
        /// closure that it was given.
        #[derive(Clone, Copy, Debug, PartialEq, Eq, Hash)]
        #[non_exhaustive]
        pub enum Refusal {
            $(#[doc = concat!($why, ".")] $name,)*
            /// One that a later release of the library has.
            Other(u32),
        }

        impl Refusal {
            pub(crate) fn of(number: u32) -> Refusal {
                match number {
                    $($number => Refusal::$name,)*
                    other => Refusal::Other(other),
                }
            }

            /// Its number, which stays the same in every release.
            pub fn number(self) -> u32 {
                match self {
                    $(Refusal::$name => $number,)*
                    Refusal::Other(number) => number,
                }
            }

            // (one of a later release has its name alone)
            fn why(self) -> Option<&'static str> {
                match self {
                    $(Refusal::$name => Some($why),)*
                    Refusal::Other(_) => None,
                }
            }
        }
    };
}

refusals! {
    NoRoom = 1, "a final handler has not completed the events in the slots: wait, and claim again";
    Halted = 2, "the ring is halted, for good: publish what is claimed, and end";
    BadCount = 3, "none, or more than there can be; or not a receiver for each handler";
    Exhausted = 4, "the claim goes past the limit of sequences";
    NotClaimed = 5, "nobody claimed the sequence, or another sender did";
    AlreadyPublished = 6, "the sequence is published, and its event may be read by then";
    NotWritten = 7, "a sequence of the stretch has no event yet";
    OutOfOrder = 8, "an earlier sequence is not published";
    NotTaken = 9, "the handler has not taken so many events";
    Behind = 10, "the handler has completed more already";
    NoHandler = 12, "the ring has no handler of that number";
    Contended = 16, "another sender claimed meanwhile: claim again";
    TooMany = 25, "there would be more than 16 handlers";
    NoHandlers = 26, "there would be no handler";
    BadSize = 31, "the size is no power of two from 1 to 65536";
    BadProducers = 32, "there would be no senders, or more than 16";
    BadLimit = 33, "the limit of sequences is 0 or above 2^62";
    NoMemory = 40, "an allocation failed";
    OpenClaim = 41, "a claimed sequence is not published";
    NotOpen = 61, "the handle is zero, or was freed";
    WrongEnd = 62, "the handle has an end of another kind";
    BadOrder = 64, "a handler's mask names itself, or one after it";
}

impl Refusal {
    /// Its name, as `bad-size`.
    pub fn name(self) -> String {
        let mut text = [0; 32];
        // SAFETY: so much room is there.
        let length = unsafe { disruptor_name_at(self.number(), text.as_mut_ptr(), text.len()) };
        String::from_utf8_lossy(&text[..length.min(text.len())]).into_owned()
    }
}

/// Its name, and what it means: `bad-size: the size is no power of two from 1 to 65536`.
impl fmt::Display for Refusal {
    fn fmt(&self, f: &mut fmt::Formatter<'_>) -> fmt::Result {
        f.write_str(&self.name())?;
        self.why().map_or(Ok(()), |why| write!(f, ": {why}"))
    }
}

impl std::error::Error for Refusal {}

pub(crate) fn answer(number: u32) -> Result<(), Refusal> {
    if number == 0 {
        Ok(())
    } else {
        Err(Refusal::of(number))
    }
}

#[cfg(test)]
mod tests {
    use super::Refusal;
    use std::path::{Path, PathBuf};

    // (it lies elsewhere beside the crate as it is packed)
    fn header() -> Option<String> {
        let library = std::env::var_os("DISRUPTOR_LIB").map(PathBuf::from);
        let crate_of = Path::new(env!("CARGO_MANIFEST_DIR"));
        let mut folders = vec![crate_of.join("../../include"), crate_of.join("../include")];
        folders.extend(library.map(|it| it.join("../include")));
        folders.iter().find_map(|it| std::fs::read_to_string(it.join("disruptor.h")).ok())
    }

    #[test]
    fn each_refusal_says_what_the_header_says() {
        let header = match header() {
            Some(header) => header,
            None => return,
        };
        let mut known = 0;
        for line in header.lines().filter_map(|line| line.trim().strip_prefix("of(")) {
            let (number, texts) = (line.split(',').next().unwrap(), line.split('"').collect::<Vec<_>>());
            let refusal = Refusal::of(number.parse().unwrap());
            let is_other = matches!(refusal, Refusal::Other(_));
            let says = if is_other { texts[1].to_owned() } else { format!("{}: {}", texts[1], texts[3]) };
            assert_eq!((refusal.name(), refusal.to_string()), (texts[1].to_owned(), says));
            known += usize::from(!is_other);
        }
        assert_eq!(known, 22);
    }
}
