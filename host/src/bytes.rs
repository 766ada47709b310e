//! What the types of checked bytes have in common: they are read as bytes, and can be taken apart.

macro_rules! checked_bytes {
    ($name:ident) => {
        impl $name {
            /// Its bytes.
            ///
            /// ```
            /// use spatecanter::{read_tape, reprint, Machine};
            ///
            /// let galley = read_tape(&[0x40, 0x49], Machine::Eight)?;
            /// assert_eq!(galley.as_bytes(), [2, 0, 4, 0, 0, 0, 0]);
            /// let made = reprint(&galley, &[])?;
            /// assert_eq!(made.dvi.as_bytes()[0], 129);
            /// assert_eq!(made.sheet.as_bytes()[..7], [5, 0, 4, 0, 0, 0, 1]);
            /// # Ok::<(), spatecanter::Refusal>(())
            /// ```
            pub fn as_bytes(&self) -> &[u8] {
                &self.bytes
            }

            /// Its bytes, without a copy.
            ///
            /// ```
            /// use spatecanter::{read_tape, Machine};
            ///
            /// let bytes: Vec<u8> = read_tape(&[0x40, 0x49], Machine::Eight)?.into_bytes();
            /// assert_eq!(bytes.len(), 7);
            /// # Ok::<(), spatecanter::Refusal>(())
            /// ```
            pub fn into_bytes(self) -> Vec<u8> {
                self.bytes
            }
        }

        impl std::ops::Deref for $name {
            type Target = [u8];

            fn deref(&self) -> &[u8] {
                &self.bytes
            }
        }

        impl AsRef<[u8]> for $name {
            fn as_ref(&self) -> &[u8] {
                &self.bytes
            }
        }

        impl From<$name> for Vec<u8> {
            fn from(checked: $name) -> Vec<u8> {
                checked.bytes
            }
        }

        impl PartialEq<[u8]> for $name {
            fn eq(&self, other: &[u8]) -> bool {
                self.bytes == other
            }
        }

        impl PartialEq<Vec<u8>> for $name {
            fn eq(&self, other: &Vec<u8>) -> bool {
                self.bytes == *other
            }
        }

        impl PartialEq<$name> for Vec<u8> {
            fn eq(&self, other: &$name) -> bool {
                *self == other.bytes
            }
        }
    };
}

pub(crate) use checked_bytes;
