//! What the pages tell of calls.
use std::error::Error;
use std::fmt::Debug;
use std::path::PathBuf;
use std::process::{Command, Stdio};
use std::time::Duration;
use wulameron::*;

type Outcome = Result<(), Box<dyn Error>>;

#[test]
fn nodes_agree() -> Outcome {
    let table = Table::new()?;
    let [first, second] = [1, 2].map(|id| Node::new(&table, id));
    let created = first.service_builder("My/Funk/ServiceName").event().max_listeners(4).create()?;
    let opened = second.service_builder("My/Funk/ServiceName").event().max_listeners(3).open()?;
    assert_eq!(opened.max_listeners()?, 4);
    assert_eq!(opened.notifier_dead_event()?, None);
    let refused = second.service_builder("My/Funk/ServiceName").event().max_listeners(5).open().err();
    assert_eq!(refused, Some(EventOpenError::DoesNotSupportRequestedAmountOfListeners));
    let again = second.service_builder("My/Funk/ServiceName").event().create();
    assert_eq!(again.err(), Some(EventCreateError::AlreadyExists));
    created.close()?;
    assert_eq!(second.services()?, 1);
    drop(opened);
    assert_eq!(second.services()?, 0);
    Ok(())
}

#[test]
fn messages_have_types() -> Outcome {
    let table = Table::new()?;
    let detail = |name: &str| TypeDetail { is_dynamic: false, name: name.to_string(), size: 8, alignment: 8 };
    let node = Node::new(&table, 1);
    let camera = node.service_builder("camera").publish_subscribe().payload(detail("Frame"));
    let camera = camera.enable_safe_overflow(false).create()?;
    assert!(!camera.enable_safe_overflow()?);
    let other = node.service_builder("camera").publish_subscribe().payload(detail("Other")).open();
    assert_eq!(other.err(), Some(PublishSubscribeOpenError::IncompatibleTypes));
    let oven = node.service_builder("oven").request_response().max_servers(3).open_or_create()?;
    assert_eq!(oven.max_servers()?, 3);
    assert!(oven.bytes()?.starts_with(b"IOX2\x02\0\0\0\0\0\0\0\x01"));
    assert_eq!(oven.max_listeners().err().map(|error| error.code), Some(Code::UnknownSetting));
    let more = node.service_builder("oven").request_response().max_servers(4).open_or_create().err();
    let inner = RequestResponseOpenError::DoesNotSupportRequestedAmountOfServers;
    assert_eq!(more, Some(RequestResponseOpenOrCreateError::RequestResponseOpenError(inner)));
    Ok(())
}

#[test]
fn deadlines_have_a_time() -> Outcome {
    let table = Table::new()?;
    let event = || Node::new(&table, 1).service_builder("lamps").event();
    let _lamps = event().deadline(Some(Duration::new(1, 500))).create()?;
    let _same = event().deadline(Some(Duration::new(1, 500))).open()?;
    for deadline in [None, Some(Duration::new(1, 501))] {
        assert_eq!(event().deadline(deadline).open().err(), Some(EventOpenError::IncompatibleDeadline));
    }
    Ok(())
}

#[test]
fn what_is_wrong_has_a_text() -> Outcome {
    let table = Table::new()?;
    let node = Node::new(&table, 1);
    let error = node.service_builder("").event().open().err();
    assert_eq!(error.map(|error| error.to_string()).as_deref(), Some("a service's name has 1 to 255 bytes"));
    let wrong = node.service_builder("camera").publish_subscribe().payload_alignment(3).create().err();
    let Some(PublishSubscribeCreateError::NotDone(failure)) = wrong else { panic!("it isn't carried out") };
    assert_eq!(failure.code, Code::BadValue);
    let absent = EventOpenError::DoesNotExist;
    let [name, when, what] = absent.texts();
    assert_eq!((absent.number(), name.as_str()), (Some(1001), "EventOpenError::DoesNotExist"));
    assert_eq!(absent.to_string(), format!("EventOpenError::DoesNotExist: {when}; {what}"));
    Ok(())
}

/// Each value's number leads back to it, and its name is that of the library.
#[test]
fn numbers_lead_back() {
    fn leads_back<E: Refusal + Debug>(thousands: u32, values: &[u32]) {
        let name = std::any::type_name::<E>().rsplit("::").next().unwrap_or_default().to_string();
        for place in values {
            let error = E::of(thousands + place);
            assert_eq!(error.number(), Some(thousands + place));
            let [named, when, what] = error.texts();
            assert_eq!(named, format!("{name}::{error:?}"));
            assert!(!when.is_empty() && !what.is_empty());
        }
        assert_eq!(E::of(thousands).number(), None);
        assert_eq!(E::of(thousands + 400).number(), None);
    }
    let to = |end: u32| (1..=end).collect::<Vec<u32>>();
    let both = |open: u32, create: u32| {
        let mut values = to(open);
        values.extend(501..=500 + create);
        values.push(999);
        values
    };
    leads_back::<EventOpenError>(1000, &to(18));
    leads_back::<EventCreateError>(2000, &to(7));
    leads_back::<EventOpenOrCreateError>(3000, &both(18, 7));
    leads_back::<PublishSubscribeOpenError>(4000, &to(18));
    leads_back::<PublishSubscribeCreateError>(5000, &to(8));
    leads_back::<PublishSubscribeOpenOrCreateError>(6000, &both(18, 8));
    leads_back::<RequestResponseOpenError>(7000, &to(22));
    leads_back::<RequestResponseCreateError>(8000, &to(7));
    leads_back::<RequestResponseOpenOrCreateError>(9000, &both(22, 7));
}

#[test]
fn slots_end() -> Outcome {
    let table = Table::new()?;
    let mut held = Vec::new();
    for id in 0..64 {
        held.push(Node::new(&table, id).service_builder("many").event().max_nodes(64).open_or_create()?);
    }
    let more = Node::new(&table, 64).service_builder("more").event().create();
    let Some(EventCreateError::NotDone(failure)) = more.err() else { panic!("there is no slot") };
    assert_eq!((failure.code, failure.to_string().as_str()), (Code::NoFreeSlot, "all 64 slots are taken"));
    held.pop();
    let _more = Node::new(&table, 64).service_builder("more").event().create()?;
    Ok(())
}

/// A log in a folder of its own, which goes with it.
struct Log(PathBuf);

impl Log {
    fn new(name: &str) -> Result<Log, std::io::Error> {
        let folder = std::env::temp_dir().join(format!("wulameron-{}-{name}", std::process::id()));
        std::fs::create_dir(&folder)?;
        Ok(Log(folder))
    }

    fn path(&self) -> PathBuf {
        self.0.join("log")
    }
}

impl Drop for Log {
    fn drop(&mut self) {
        let _ = std::fs::remove_dir_all(&self.0);
    }
}

#[test]
fn nodes_meet_over_a_log() -> Outcome {
    let log = Log::new("meet")?;
    let builder = NodeBuilder { path: Some(log.path()), ..NodeBuilder::default() };
    let first = NodeBuilder { number: Some(5), ..builder.clone() }.create()?;
    let second = Node::over_log(log.path())?;
    assert_eq!((first.number(), second.number()), (5, 0));
    let created = first.service_builder("lamps").event().max_listeners(4).create()?;
    let opened = second.service_builder("lamps").event().max_listeners(3).open()?;
    assert_eq!(opened.max_listeners()?, 4);
    let refused = second.service_builder("lamps").event().max_listeners(5).open().err();
    assert_eq!(refused, Some(EventOpenError::DoesNotSupportRequestedAmountOfListeners));
    drop((created, first));
    assert_eq!(second.services()?, 1);
    opened.close()?;
    assert_eq!(second.services()?, 0);
    let taken = NodeBuilder { number: Some(0), ..builder.clone() }.create().err();
    assert_eq!(taken.map(|failure| failure.code), Some(Code::NodeInUse));
    let absent = NodeBuilder { program: Some("/not/here".into()), ..builder }.create().err();
    assert_eq!(absent.map(|failure| failure.code), Some(Code::NoProgram));
    Ok(())
}

/// Over a table and over a log there are the same services and lines, and over a log there are nodes too.
fn looks(node: &Node) -> Outcome {
    let lamps = node.service_builder("lamps").event().max_nodes(2).max_listeners(4).create()?;
    let entries = node.entries()?;
    assert_eq!((entries.len(), node.services()?), (1, 1));
    let [entry] = &entries[..] else { panic!("there is one service") };
    assert_eq!((entry.state, entry.pattern, entry.name.as_str()), (State::Published, Some(Pattern::Event), "lamps"));
    assert_eq!((entry.number, entry.nodes, entry.max_nodes, entry.hash.len()), (lamps.number(), 1, 2, 20));
    // The builder's own slot is taken, and the next one goes to a line; another builder takes one that is free.
    let line = format!("rr create {} 1 oven max_servers=3", node.number());
    assert!(node.line(&line)?.starts_with("ok 1 number="));
    let camera = node.service_builder("camera").publish_subscribe().create()?;
    assert_eq!(node.entries()?.iter().filter(|entry| entry.pattern == Some(Pattern::RequestResponse)).count(), 1);
    assert!(node.line("list")?.contains("lamps"));
    assert_eq!(node.line("")?.trim(), "");
    assert_eq!(node.line("close 1")?.trim(), "closed 1");
    let wrong = node.line("event crate 1 0 lamps").err();
    assert_eq!(wrong.as_ref().map(|failure| failure.code), Some(Code::BadLine));
    assert!(wrong.is_some_and(|failure| failure.message.contains("create")));
    camera.close()?;
    lamps.close()?;
    assert_eq!(node.entries()?, []);
    Ok(())
}

#[test]
fn a_table_is_looked_at() -> Outcome {
    let node = Node::new(&Table::new()?, 7);
    looks(&node)?;
    for code in [node.nodes().err(), node.clean(None, true).err()] {
        assert_eq!(code.map(|failure| failure.code), Some(Code::OnlyOverLog));
    }
    Ok(())
}

#[test]
fn a_log_is_looked_at() -> Outcome {
    let log = Log::new("look")?;
    let program = std::env::var_os("WULAMERON").map(PathBuf::from);
    let builder = NodeBuilder { path: Some(log.path()), program, ..NodeBuilder::default() };
    let node = NodeBuilder { number: Some(5), ..builder.clone() }.create()?;
    looks(&node)?;
    let other = NodeBuilder { number: Some(9), ..builder }.create()?;
    let known = |number, state| KnownNode { number, state };
    assert_eq!(node.nodes()?, [known(5, NodeState::Alive), known(9, NodeState::Alive)]);
    assert_eq!(node.clean(Some(9), false).err().map(|failure| failure.code), Some(Code::NodeAlive));
    assert_eq!(node.clean(Some(10), false).err().map(|failure| failure.code), Some(Code::NoSuchItem));
    drop(other);
    let ended = known(9, NodeState::Ended);
    assert_eq!(node.nodes()?, [known(5, NodeState::Alive), ended]);
    assert!(!ended.is_alive());
    let nothing = Cleaned { nodes: 0, releases: 0, removals: 0 };
    assert_eq!((node.clean(None, true)?, node.clean(Some(9), false)?), (nothing, nothing));
    Ok(())
}

/// A program in words of the shell, beside a log: its path. A shell writes it. Were it open here, a process that another
/// test starts at that moment would have it open too, and a file that is open to write can't be started (ETXTBSY).
fn program(log: &Log, lines: &[&str]) -> Result<PathBuf, Box<dyn Error>> {
    let program = log.0.join("program");
    let text = format!("#!/bin/sh\n{}", lines.join("\n"));
    let write = r#"printf '%s\n' "$2" >"$1" && chmod 700 "$1""#;
    let written = Command::new("sh").args(["-c", write, "sh"]).arg(&program).arg(text).status()?;
    if written.success() { Ok(program) } else { Err("the program can't be written".into()) }
}

/// A node of which only its own process may know whether it goes on.
#[test]
fn a_node_may_be_lost() -> Outcome {
    let log = Log::new("states")?;
    let lines = ["echo 'ready 3 5'", "while read -r line; do echo 'nodes 2 4,lost 5,alive'; done"];
    let program = program(&log, &lines)?;
    let node = NodeBuilder { path: Some(log.path()), program: Some(program), ..NodeBuilder::default() }.create()?;
    let known = |number, state| KnownNode { number, state };
    assert_eq!(node.nodes()?, [known(4, NodeState::Lost), known(5, NodeState::Alive)]);
    assert!(!node.nodes()?[0].is_alive());
    Ok(())
}

/// A program that grants a call, and loses its session with a database at the next line.
#[test]
fn a_lost_session_names_what_was_held() -> Outcome {
    let log = Log::new("lost")?;
    let lines = ["echo 'ready 3 5'", "read -r line; echo 'ok 0 number=0'", "read -r line; echo lost; exit 3"];
    let program = program(&log, &lines)?;
    let node = NodeBuilder { path: Some(log.path()), program: Some(program), ..NodeBuilder::default() }.create()?;
    let lamps = node.service_builder("two lamps").event().open()?;
    let failure = node.services().err().ok_or("the session isn't lost")?;
    assert_eq!((failure.code, failure.message.as_str()), (Code::Lost, "two%20lamps"));
    assert_eq!(failure.to_string(), "the session was lost; open again: two%20lamps");
    drop(lamps);
    Ok(())
}

/// Another process finds what this one holds, by the program's own words.
#[test]
fn other_programs_find_it() -> Outcome {
    let log = Log::new("find")?;
    let node = Node::over_log(log.path())?;
    let _lamps = node.service_builder("lamps").event().create()?;
    let program = std::env::var_os("WULAMERON").ok_or("WULAMERON names the program")?;
    let list = Command::new(program).arg("list").arg("--at").arg(log.path()).stderr(Stdio::inherit()).output()?;
    assert!(String::from_utf8_lossy(&list.stdout).contains("lamps"));
    Ok(())
}
