//! Capabilities of seats and devices, one by one and as a set.

use crate::event::Interface;
use std::{fmt, ops::BitOr};

/// What a seat or a device can do. The numbers are the bits of a mask.
///
/// ```
/// use bozterrun::{DeviceCapability, Interface};
///
/// assert_eq!(DeviceCapability::Keyboard.bits(), 4);
/// assert_eq!(DeviceCapability::Keyboard.interface(), Interface::Keyboard);
/// ```
#[derive(Clone, Copy, Debug, PartialEq, Eq, Hash)]
#[repr(u64)]
pub enum DeviceCapability {
    /// Relative motion of a pointer.
    Pointer = 1 << 0,
    /// Absolute motion of a pointer.
    PointerAbsolute = 1 << 1,
    /// Keys.
    Keyboard = 1 << 2,
    /// Touches.
    Touch = 1 << 3,
    /// Scrolling.
    Scroll = 1 << 4,
    /// Buttons of a mouse.
    Button = 1 << 5,
    /// Keysyms and texts.
    Text = 1 << 6,
}

impl DeviceCapability {
    /// All seven, in the order of their bits.
    pub const ALL: [Self; 7] = [
        Self::Pointer,
        Self::PointerAbsolute,
        Self::Keyboard,
        Self::Touch,
        Self::Scroll,
        Self::Button,
        Self::Text,
    ];

    /// Its bit.
    #[inline]
    #[must_use]
    pub const fn bits(self) -> u64 {
        self as u64
    }

    /// The capability whose bit alone is set, if there is one.
    ///
    /// ```
    /// use bozterrun::DeviceCapability;
    ///
    /// assert_eq!(DeviceCapability::from_bits(64), Some(DeviceCapability::Text));
    /// assert_eq!(DeviceCapability::from_bits(3), None);
    /// ```
    #[must_use]
    pub const fn from_bits(bits: u64) -> Option<Self> {
        match bits {
            1 => Some(Self::Pointer),
            2 => Some(Self::PointerAbsolute),
            4 => Some(Self::Keyboard),
            8 => Some(Self::Touch),
            16 => Some(Self::Scroll),
            32 => Some(Self::Button),
            64 => Some(Self::Text),
            _ => None,
        }
    }

    /// The interface that a device has for it.
    #[must_use]
    pub const fn interface(self) -> Interface {
        match self {
            Self::Pointer => Interface::Pointer,
            Self::PointerAbsolute => Interface::PointerAbsolute,
            Self::Keyboard => Interface::Keyboard,
            Self::Touch => Interface::Touchscreen,
            Self::Scroll => Interface::Scroll,
            Self::Button => Interface::Button,
            Self::Text => Interface::Text,
        }
    }
}

/// A set of capabilities, as a mask.
///
/// A mask may have bits that are no capability's: the library refuses it then.
///
/// ```
/// use bozterrun::{DeviceCapabilities, DeviceCapability};
///
/// let both = DeviceCapability::Keyboard | DeviceCapability::Text;
/// assert_eq!(both.bits(), 68);
/// assert!(both.contains(DeviceCapability::Text));
/// assert!(!both.contains(DeviceCapability::Touch));
/// assert_eq!(both, DeviceCapabilities::from_bits(68));
/// assert_eq!(both.iter().collect::<Vec<_>>(), [DeviceCapability::Keyboard, DeviceCapability::Text]);
/// ```
#[derive(Clone, Copy, PartialEq, Eq, Hash, Default)]
pub struct DeviceCapabilities(u64);

impl DeviceCapabilities {
    /// All seven.
    pub const ALL: Self = Self(127);

    /// The set of this mask, other bits included.
    #[inline]
    #[must_use]
    pub const fn from_bits(bits: u64) -> Self {
        Self(bits)
    }

    /// Its mask.
    #[inline]
    #[must_use]
    pub const fn bits(self) -> u64 {
        self.0
    }

    /// Whether all of these are in the set.
    #[inline]
    #[must_use]
    pub fn contains(self, other: impl Into<Self>) -> bool {
        let other = other.into();
        self.0 & other.0 == other.0
    }

    /// The capabilities of the set, in the order of their bits.
    pub fn iter(self) -> impl Iterator<Item = DeviceCapability> {
        DeviceCapability::ALL
            .into_iter()
            .filter(move |capability| self.contains(*capability))
    }
}

impl fmt::Debug for DeviceCapabilities {
    fn fmt(&self, f: &mut fmt::Formatter<'_>) -> fmt::Result {
        write!(f, "DeviceCapabilities({:#x})", self.0)
    }
}

impl From<DeviceCapability> for DeviceCapabilities {
    #[inline]
    fn from(capability: DeviceCapability) -> Self {
        Self(capability.bits())
    }
}

impl<T: Into<DeviceCapabilities>> BitOr<T> for DeviceCapability {
    type Output = DeviceCapabilities;

    #[inline]
    fn bitor(self, other: T) -> DeviceCapabilities {
        DeviceCapabilities(self.bits() | other.into().bits())
    }
}

impl<T: Into<DeviceCapabilities>> BitOr<T> for DeviceCapabilities {
    type Output = DeviceCapabilities;

    #[inline]
    fn bitor(self, other: T) -> DeviceCapabilities {
        DeviceCapabilities(self.0 | other.into().bits())
    }
}
