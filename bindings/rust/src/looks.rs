//! What stands at a table or a log: its services, its nodes, and lines in the words of `negotiate`.
use crate::{raw, raw::call, Failure, Node};

/// What stands of an entry.
#[derive(Clone, Copy, Debug, PartialEq, Eq)]
#[non_exhaustive]
pub enum State {
    BeingCreated,
    Published,
    /// Its last node has left, and something of it is left.
    Marked,
    SegmentAlone,
}

/// The pattern of a service.
#[derive(Clone, Copy, Debug, PartialEq, Eq)]
pub enum Pattern {
    Event,
    PublishSubscribe,
    RequestResponse,
}

/// What stands of a service. The pattern is `None`, the name empty and a number 0 where it isn't known of one that is
/// being created.
#[derive(Clone, Debug, PartialEq, Eq)]
pub struct Entry {
    pub state: State,
    pub pattern: Option<Pattern>,
    pub number: u64,
    pub nodes: u64,
    pub max_nodes: u64,
    pub name: String,
    /// The bytes by which it is found.
    pub hash: Vec<u8>,
}

/// Whether a node's process is alive.
#[derive(Clone, Copy, Debug, PartialEq, Eq)]
#[non_exhaustive]
pub enum NodeState {
    Alive,
    /// Its process is gone, and something that it had is left.
    Dead,
    /// Its process is gone, and nothing is left.
    Ended,
    /// Its session with a database has ended, and for some seconds only its own process gets it.
    Lost,
}

/// A node that was ever claimed at a log, and its state.
#[derive(Clone, Copy, Debug, PartialEq, Eq)]
pub struct KnownNode {
    pub number: u64,
    pub state: NodeState,
}

impl KnownNode {
    /// Whether its process is alive.
    pub fn is_alive(&self) -> bool {
        self.state == NodeState::Alive
    }
}

/// What was given back: of how many nodes, how many places at services, and how many things were removed.
#[derive(Clone, Copy, Debug, PartialEq, Eq)]
pub struct Cleaned {
    pub nodes: u64,
    pub releases: u64,
    pub removals: u64,
}

impl Node {
    /// How many services stand at its table or log.
    pub fn services(&self) -> Result<u64, Failure> {
        let mut count = 0;
        self.session.done(call!(wulameron_list, self.session.pointer, &mut count)).map(|()| count)
    }

    /// What stands at its table or log now.
    pub fn entries(&self) -> Result<Vec<Entry>, Failure> {
        (0..self.services()?).map(|index| self.entry(index)).collect()
    }

    fn entry(&self, index: u64) -> Result<Entry, Failure> {
        let session = &self.session;
        let (pointer, mut state, mut pattern) = (session.pointer, 0, 0);
        let (mut number, mut nodes, mut max_nodes) = (0, 0, 0);
        let (first, second) = (&mut state, &mut pattern);
        session.done(call!(
            wulameron_get_entry,
            pointer,
            index,
            first,
            second,
            &mut number,
            &mut nodes,
            &mut max_nodes
        ))?;
        let name =
            raw::bytes(|output, size, length| call!(wulameron_get_entry_name, pointer, index, output, size, length));
        let hash =
            raw::bytes(|output, size, length| call!(wulameron_get_entry_hash, pointer, index, output, size, length));
        Ok(Entry {
            state: match state {
                1 => State::BeingCreated,
                3 => State::Marked,
                4 => State::SegmentAlone,
                _ => State::Published,
            },
            pattern: match pattern {
                1 => Some(Pattern::Event),
                2 => Some(Pattern::PublishSubscribe),
                3 => Some(Pattern::RequestResponse),
                _ => None,
            },
            number,
            nodes,
            max_nodes,
            name: String::from_utf8_lossy(&name.map_err(|code| session.failure(code))?).into_owned(),
            hash: hash.map_err(|code| session.failure(code))?,
        })
    }

    /// Each node that was ever claimed at its log, by rising number. `Code::OnlyOverLog` at a table.
    pub fn nodes(&self) -> Result<Vec<KnownNode>, Failure> {
        let (session, mut count) = (&self.session, 0);
        session.done(call!(wulameron_nodes, session.pointer, &mut count))?;
        let known = |index| {
            let (mut number, mut state) = (0, 0);
            session.done(call!(wulameron_get_node, session.pointer, index, &mut number, &mut state))?;
            let state = match state {
                raw::ALIVE => NodeState::Alive,
                raw::DEAD => NodeState::Dead,
                raw::NODE_LOST => NodeState::Lost,
                _ => NodeState::Ended,
            };
            Ok(KnownNode { number, state })
        };
        (0..count).map(known).collect()
    }

    /// Gives back what a dead node has, or with `None` what each one has; a dry run only tells. `Code::NodeAlive` where
    /// the node's process is alive, `Code::NoSuchItem` where it was never claimed, `Code::OnlyOverLog` at a table.
    pub fn clean(&self, node: Option<u64>, is_dry_run: bool) -> Result<Cleaned, Failure> {
        let (session, node) = (&self.session, node.unwrap_or(raw::ANY_NODE));
        let (mut nodes, mut releases, mut removals) = (0, 0, 0);
        let is_dry_run = u32::from(is_dry_run);
        session.done(call!(
            wulameron_clean,
            session.pointer,
            node,
            is_dry_run,
            &mut nodes,
            &mut releases,
            &mut removals
        ))?;
        Ok(Cleaned { nodes, releases, removals })
    }

    /// The reply to a line: docs/PROGRAM.md. A line names its slot itself; a builder takes one that is free.
    /// `Code::BadLine` with what is wrong where it is no command.
    pub fn line(&self, line: &str) -> Result<String, Failure> {
        let session = &self.session;
        session.done(call!(wulameron_line, session.pointer, line.as_ptr(), line.len()))?;
        raw::bytes(|output, size, length| call!(wulameron_get_reply, session.pointer, output, size, length))
            .map(|reply| String::from_utf8_lossy(&reply).into_owned())
            .map_err(|code| session.failure(code))
    }
}
