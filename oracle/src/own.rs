//! The Rust's own reading of descriptors, which the mode `Own` runs: its lines (changes/own_usb.txt, changes/own_capture.txt), what they
//! lean on in place of other crates, and a guard around them, since some payloads make the Rust run for ever or panic.

use std::any::Any;
use std::cell::RefCell;
use std::num::TryFromIntError;
use std::panic::{AssertUnwindSafe, catch_unwind, resume_unwind};
use std::sync::Arc;
use std::sync::atomic::{AtomicU32, Ordering};

pub use self::capture::DeviceData;
use self::usb::{BCDVersion, ConfigDescriptor, DeviceDescriptor, EndpointDescriptor};
use self::usb::{InterfaceAssociationDescriptor, InterfaceDescriptor};
use crate::crates::Error;
use crate::usb::SetupFields;

#[allow(dead_code)]
mod usb {
    use std::collections::BTreeMap;

    use super::{ClassId, EndpointAttr, InterfaceAlt, InterfaceNum, ProtocolId, StringId, SubclassId};
    use super::{NEVER_ENDS, PANICS, pod_read_unaligned, stopped};
    use crate::usb::{EndpointAddr, EndpointType};
    include!(concat!(env!("OUT_DIR"), "/own_usb.rs"));
}

#[allow(dead_code)]
mod capture {
    use std::sync::Arc;
    use std::sync::atomic::AtomicU32;
    use std::sync::atomic::Ordering::Release;

    use anyhow::Error;

    use super::usb::{ConfigDescriptor, Configuration, DescriptorType, DeviceDescriptor};
    use super::{ArcSwap, ArcSwapOption, ConfigNum, InterfaceAlt, InterfaceNum, StringId, UTF16ByteVec};
    use crate::capture::{CONTROL_EP_NUM, EndpointType, FRAMING_EP_NUM, INVALID_EP_NUM};
    use crate::storage::VecMap;
    use crate::usb::{self, EndpointAddr, Recipient, RequestType, SetupFields, StandardRequest};
    include!(concat!(env!("OUT_DIR"), "/own_capture.rs"));
}

/// A byte with a name, as in usb.rs; it is ordered, since interfaces are kept by number and alternate setting.
macro_rules! byte_type {
    ($($name:ident),+) => {$(
        #[derive(Copy, Clone, Debug, Default, PartialEq, Eq, PartialOrd, Ord)]
        #[repr(transparent)]
        pub struct $name(pub u8);

        impl From<u8> for $name {
            fn from(byte: u8) -> $name {
                $name(byte)
            }
        }

        impl From<$name> for usize {
            fn from(value: $name) -> usize {
                value.0 as usize
            }
        }
    )+};
}

byte_type!(StringId, ConfigNum, InterfaceNum, InterfaceAlt, EndpointAttr, ClassId, SubclassId, ProtocolId);

/// usb.rs has it with the text that it stands for.
#[derive(Clone)]
pub struct UTF16ByteVec(pub Vec<u8>);

// ---- bytemuck's

/// A struct of bytes and u16s in C's order with nothing between them: any bytes are one.
///
/// # Safety
/// It must be that.
pub unsafe trait Pod: Copy {}

unsafe impl Pod for BCDVersion {}
unsafe impl Pod for DeviceDescriptor {}
unsafe impl Pod for ConfigDescriptor {}
unsafe impl Pod for InterfaceAssociationDescriptor {}
unsafe impl Pod for InterfaceDescriptor {}
unsafe impl Pod for EndpointDescriptor {}

pub fn pod_read_unaligned<T: Pod>(bytes: &[u8]) -> T {
    assert_eq!(bytes.len(), size_of::<T>(), "as many bytes as the struct has");
    // There are enough bytes, and any bytes are a T.
    unsafe { std::ptr::read_unaligned(bytes.as_ptr().cast()) }
}

// ---- arc_swap's, with packetry's rcu

#[derive(Clone, Default)]
pub struct ArcSwap<T>(RefCell<Arc<T>>);

impl<T> ArcSwap<T> {
    pub fn load(&self) -> Arc<T> {
        self.0.borrow().clone()
    }

    pub fn swap(&self, value: Arc<T>) -> Arc<T> {
        self.0.replace(value)
    }
}

impl<T: Clone> ArcSwap<T> {
    pub fn update(&self, change: impl FnOnce(&mut T)) {
        change(Arc::make_mut(&mut self.0.borrow_mut()));
    }

    /// A change that says whether it changed anything.
    pub fn maybe_update(&self, change: impl FnOnce(&mut T) -> bool) {
        change(Arc::make_mut(&mut self.0.borrow_mut()));
    }
}

pub struct ArcSwapOption<T>(RefCell<Option<Arc<T>>>);

impl<T> Default for ArcSwapOption<T> {
    fn default() -> Self {
        ArcSwapOption(RefCell::new(None))
    }
}

impl<T> Clone for ArcSwapOption<T> {
    fn clone(&self) -> Self {
        ArcSwapOption(self.0.clone())
    }
}

impl<T> ArcSwapOption<T> {
    pub fn load(&self) -> Option<Arc<T>> {
        self.0.borrow().clone()
    }

    pub fn swap(&self, value: Option<Arc<T>>) -> Option<Arc<T>> {
        self.0.replace(value)
    }
}

/// A call that is refused for want of room is undone, from a copy of the state.
impl Clone for DeviceData {
    fn clone(&self) -> Self {
        DeviceData {
            device_descriptor: self.device_descriptor.clone(),
            configurations: self.configurations.clone(),
            config_number: self.config_number.clone(),
            interface_settings: self.interface_settings.clone(),
            endpoint_details: self.endpoint_details.clone(),
            strings: self.strings.clone(),
            version: AtomicU32::new(self.version.load(Ordering::Relaxed)),
        }
    }
}

/// anyhow takes any error; here the one of a number that does not fit a byte.
impl From<TryFromIntError> for Error {
    fn from(error: TryFromIntError) -> Error {
        Error(error.to_string())
    }
}

// ---- the guard

pub const NEVER_ENDS: &str = "the Rust never ends";
pub const PANICS: &str = "the Rust panics";

struct Stopped(&'static str);

/// Leaves the Rust where it would run for ever or panic; no message is printed.
pub fn stopped(why: &'static str) {
    resume_unwind(Box::new(Stopped(why)))
}

/// The Rust's own `decode_request`; where it was stopped, an error says why.
pub fn decode_request(device: &DeviceData, fields: &SetupFields, payload: &[u8]) -> Result<(), Error> {
    let thrown: Box<dyn Any + Send> = match catch_unwind(AssertUnwindSafe(|| device.decode_request(fields, payload))) {
        Ok(result) => return result,
        Err(thrown) => thrown,
    };
    match thrown.downcast::<Stopped>() {
        Ok(why) => Err(Error(why.0.to_string())),
        Err(other) => resume_unwind(other),
    }
}
