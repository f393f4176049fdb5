//! A process that meets others over a log: `meet FILE`, once in each of two terminals. It reads lines such as
//!
//! ```text
//! create lamps 4      creates the service of events `lamps` with room for four listeners
//! open lamps 3        opens it for at least three
//! ```
//!
//! and answers each with what was agreed, or with why it is refused. At the end of its input it closes all.
use std::error::Error;
use std::io::BufRead;
use wulameron::{Node, PortFactory, Refusal};

/// The text of an error: of a refusal its name, and what can be done.
fn refused<E: Refusal + Error>(error: E) -> String {
    let [name, _, advice] = error.texts();
    if error.number().is_some() {
        format!("refused: {name}; {advice}")
    } else {
        error.to_string()
    }
}

/// Asks for a service.
fn ask(node: &Node, line: &str) -> Result<(PortFactory, String), String> {
    let [how, name, listeners] = line.split_whitespace().collect::<Vec<_>>()[..] else {
        return Err("a line is `create NAME LISTENERS` or `open NAME LISTENERS`".to_string());
    };
    let listeners = listeners.parse().map_err(|_| format!("{listeners} is no number"))?;
    let builder = node.service_builder(name).event().max_listeners(listeners);
    let service = if how == "create" { builder.create().map_err(refused) } else { builder.open().map_err(refused) }?;
    let room = service.max_listeners().map_err(|failure| failure.to_string())?;
    Ok((service, format!("node {}: {name} has room for {room} listeners", node.number())))
}

fn main() -> Result<(), Box<dyn Error>> {
    let path = std::env::args_os().nth(1).ok_or("usage: meet FILE")?;
    let node = Node::over_log(path)?;
    let mut held = Vec::new();
    for line in std::io::stdin().lock().lines() {
        match ask(&node, &line?) {
            Ok((service, reply)) => {
                println!("{reply}");
                held.push(service);
            }
            Err(reply) => println!("{reply}"),
        }
    }
    held.into_iter().try_for_each(PortFactory::close)?;
    Ok(())
}
