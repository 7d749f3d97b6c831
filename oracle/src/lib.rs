//! The oracle: the Rust decoder of docs/src on storage in memory, judged by document 01, and what is needed to compare the port with it.

// The source names other crates; the few names that it needs of them are in `crates`.
extern crate self as anyhow;
extern crate self as crc;
pub use crates::{CRC_16_USB, Context, Crc, Error};

pub mod bench;
pub mod blocks;
pub mod calls;
pub mod cameras;
pub mod chapter9;
pub mod compare;
pub mod coverage;
pub mod crates;
pub mod damage;
pub mod descriptors;
pub mod enumerations;
pub mod files;
pub mod generate;
pub mod ledger;
pub mod lemmas;
pub mod lent;
pub mod limits;
pub mod listed;
pub mod listing;
pub mod mixed;
pub mod mode;
pub mod once;
pub mod own;
pub mod own_and_ruled;
pub mod packets;
pub mod pcap;
pub mod program;
pub mod report;
pub mod selfcheck;
pub mod singles;
pub mod storage;
pub mod trace;
pub mod traces;
pub mod training;
pub mod typed;

pub mod util {
    pub mod rcu {
        pub use crate::storage::SingleWriterRcu;
    }
    pub mod vec_map {
        pub use crate::storage::VecMap;
    }
}

#[allow(dead_code)]
pub mod event {
    include!(concat!(env!("OUT_DIR"), "/event.rs"));
}

#[allow(dead_code)]
pub mod usb {
    use crate::bitfield;
    use anyhow::CRC_16_USB;
    use crc::Crc;
    include!(concat!(env!("OUT_DIR"), "/usb.rs"));
    include!("usb_parts.rs");
}

#[allow(dead_code)]
pub mod capture {
    use std::cell::{Cell, RefCell};
    use std::rc::Rc;
    use std::sync::Arc;
    use std::sync::atomic::AtomicBool;

    use anyhow::{Context, Error};

    use crate::bitfield;
    use crate::descriptors::{BYTES, Descriptors, Entry, Kind, Shelf, kind};
    use crate::listed::{Case, Witness};
    use crate::own;
    use crate::storage::{CompactWriter, DataWriter, Id, Journal, Link, LinkWriter, Mark, Shared, SharedJournal, VecMap};
    use crate::usb::{self, prelude::*};
    include!(concat!(env!("OUT_DIR"), "/capture.rs"));
    include!("capture_parts.rs");
}

/// A decoder made from the source, and the machine over it that the calls drive, with one file more where it is named; whether it is in the mode of change request 6.
#[macro_export]
macro_rules! decoder_module {
    ($name:ident, $file:literal) => {
        $crate::decoder_module!($name, $file, false);
    };
    ($name:ident, $file:literal, $high:literal $(, $more:literal)?) => {
        #[allow(dead_code)]
        pub mod $name {
            pub const HIGH: bool = $high;
            include!(concat!(env!("OUT_DIR"), $file));
            pub mod machine {
                include!(concat!(env!("CARGO_MANIFEST_DIR"), "/src/machine.rs"));
                $(include!(concat!(env!("CARGO_MANIFEST_DIR"), $more));)?
            }
        }
    };
}

/// A decoder that keeps an account of the payloads it counts (changes/traced.txt), and what the ledger is told of it.
#[macro_export]
macro_rules! traced_module {
    ($name:ident, $file:literal) => {
        $crate::traced_module!($name, $file, false);
    };
    ($name:ident, $file:literal, $high:literal) => {
        $crate::decoder_module!($name, $file, $high, "/src/told.rs");
    };
}

decoder_module!(decoder, "/decoder.rs");
// The same with its cases counted (build/counted.rs).
decoder_module!(counted, "/counted.rs");
traced_module!(traced, "/traced.rs");

/// The same three in the mode of change request 6 (changes/high.txt).
pub mod high {
    crate::decoder_module!(decoder, "/high.rs", true);
    crate::decoder_module!(counted, "/high_counted.rs", true);
    crate::traced_module!(traced, "/high_traced.rs", true);
}
