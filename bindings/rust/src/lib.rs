//! Which settings the nodes of a named service agree on, with the names of iceoryx2's builders.
//!
//! ```
//! use wulameron::{EventOpenError, Node, Table};
//!
//! let table = Table::new()?;
//! let _service = Node::new(&table, 1).service_builder("lamps").event().max_listeners(4).create()?;
//! let found = Node::new(&table, 2).service_builder("lamps").event().max_listeners(3).open()?;
//! assert_eq!(found.max_listeners()?, 4);
//! let refused = Node::new(&table, 3).service_builder("lamps").event().max_listeners(5).open();
//! assert_eq!(refused.err(), Some(EventOpenError::DoesNotSupportRequestedAmountOfListeners));
//! # Ok::<(), Box<dyn std::error::Error>>(())
//! ```
//!
//! A table is within this process. A node over a log meets those of other processes:
//!
//! ```
//! # let folder = std::env::temp_dir().join(format!("wulameron-{}", std::process::id()));
//! # std::fs::create_dir(&folder)?;
//! # let path = folder.join("log");
//! let node = wulameron::Node::over_log(&path)?;
//! let service = node.service_builder("lamps").event().open_or_create()?;
//! # drop((node, service));
//! # std::fs::remove_dir_all(&folder)?;
//! # Ok::<(), Box<dyn std::error::Error>>(())
//! ```
//!
//! What stands at a table or a node is for one thread. A `PortFactory` closes what it holds where it is dropped.
mod builders;
mod errors;
mod looks;
mod raw;

pub use builders::{Event, PortFactory, PublishSubscribe, RequestResponse, ServiceBuilder, TypeDetail};
pub use errors::*;
pub use looks::{Cleaned, Entry, KnownNode, NodeState, Pattern, State};
use raw::call;
use std::cell::Cell;
use std::ffi::{c_void, CString};
use std::os::unix::ffi::OsStrExt;
use std::path::{Path, PathBuf};
use std::ptr;
use std::rc::Rc;

/// A session. Its pointer is valid until it is dropped, and stays on its thread.
struct Session {
    pointer: *mut c_void,
    /// The slots that are taken, a bit each.
    taken: Cell<u64>,
}

impl Session {
    /// What a code stands for, and with a fault of the log or of a line what is wrong with it, or what was held.
    fn failure(&self, code: u32) -> Failure {
        let reply = |output, size, length| call!(wulameron_get_reply, self.pointer, output, size, length);
        let has_message = [raw::LOG, raw::BAD_LINE, raw::LOST].contains(&code);
        let message = if has_message { raw::bytes(reply).unwrap_or_default() } else { Vec::new() };
        Failure { message: String::from_utf8_lossy(&message).into_owned(), ..code.into() }
    }

    fn done(&self, code: u32) -> Result<(), Failure> {
        if code == raw::OK {
            Ok(())
        } else {
            Err(self.failure(code))
        }
    }
}

impl Drop for Session {
    fn drop(&mut self) {
        call!(wulameron_close_session, self.pointer);
    }
}

/// A table of services within this process.
#[derive(Clone)]
pub struct Table {
    session: Rc<Session>,
}

impl Table {
    /// A new table. An error where there is no memory.
    pub fn new() -> Result<Table, Failure> {
        let mut pointer = ptr::null_mut();
        match call!(wulameron_open_table, raw::VERSION, &mut pointer) {
            raw::OK => Ok(Table { session: Rc::new(Session { pointer, taken: Cell::new(0) }) }),
            code => Err(code.into()),
        }
    }
}

/// A node at a table, or one that is claimed at a log as long as it or a factory of it stands.
#[derive(Clone)]
pub struct Node {
    session: Rc<Session>,
    number: u64,
}

impl Node {
    /// The node of this number at a table.
    pub fn new(table: &Table, number: u64) -> Node {
        Node { session: table.session.clone(), number }
    }

    /// A free node at the log in this file, which is made where there is none.
    pub fn over_log(path: impl AsRef<Path>) -> Result<Node, Failure> {
        NodeBuilder { path: Some(path.as_ref().into()), ..NodeBuilder::default() }.create()
    }

    pub fn number(&self) -> u64 {
        self.number
    }

    /// The builder of a service of this name.
    pub fn service_builder(&self, name: &str) -> ServiceBuilder {
        ServiceBuilder { node: self.clone(), name: name.to_string(), pieces: Vec::new() }
    }
}

/// How a node over a log is made.
#[derive(Clone, Debug, Default)]
#[must_use]
pub struct NodeBuilder {
    /// The log's file, or that of the program by default.
    pub path: Option<PathBuf>,
    /// The node's number, or that of a free one.
    pub number: Option<u64>,
    /// The program that holds the session, or else what WULAMERON names (before version 3 WULAMERON_PROGRAM), or else
    /// `wulameron`.
    pub program: Option<PathBuf>,
}

impl NodeBuilder {
    /// Claims the node.
    pub fn create(&self) -> Result<Node, Failure> {
        let text =
            |path: &Option<PathBuf>| path.as_ref().map(|path| CString::new(path.as_os_str().as_bytes())).transpose();
        let (Ok(program), Ok(path)) = (text(&self.program), text(&self.path)) else {
            return Err(Failure { code: Code::BadValue, message: "a path has no null character".to_string() });
        };
        let [program, path] = [&program, &path].map(|text| text.as_ref().map_or(ptr::null(), |text| text.as_ptr()));
        let (mut pointer, mut text, mut length, mut number) = (ptr::null_mut(), [0; 1024], 0, 0);
        let (node, place) = (self.number.unwrap_or(raw::ANY_NODE), text.as_mut_ptr());
        match call!(wulameron_open_log, raw::VERSION, program, path, node, &mut pointer, place, text.len(), &mut length)
        {
            raw::OK => {}
            code => {
                let message = String::from_utf8_lossy(&text[..length.min(text.len())]).into_owned();
                return Err(Failure { message, ..code.into() });
            }
        }
        let session = Rc::new(Session { pointer, taken: Cell::new(0) });
        session.done(call!(wulameron_node, pointer, &mut number))?;
        Ok(Node { session, number })
    }
}
