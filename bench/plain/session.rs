//! A script that is run: the cluster, the lines so far, and what they print.

use crate::answer::Printer;
use crate::cluster::Cluster;
use crate::event::Event;
use crate::names::Names;

pub struct Session {
    names: Names,
    cluster: Cluster,
    /// How many lines were run.
    number: u64,
    output: String,
}

impl Session {
    pub fn open() -> Session {
        let mut names = Names::default();
        let cluster = Cluster::new(&mut names);
        Session {
            names,
            cluster,
            number: 0,
            output: String::new(),
        }
    }

    /// Runs the lines of a text behind those that were run.
    pub fn run_more(&mut self, text: &str) {
        for line in text.lines() {
            self.number += 1;
            if !line.is_empty() && !line.starts_with('#') {
                self.serve(line);
            }
        }
    }

    fn serve(&mut self, line: &str) {
        let read = Event::read(&mut self.names, self.cluster.name_node.ledger(), line);
        let mut printer = Printer {
            names: &self.names,
            text: &mut self.output,
        };
        printer.push_number(self.number);
        printer.text.push(' ');
        match read {
            Ok(event) => printer.push_outcome(&self.cluster.step(&self.names, event)),
            Err(fault) => printer.push_bad(fault),
        }
        printer.text.push('\n');
    }

    /// What was printed so far.
    pub fn output(&self) -> &str {
        &self.output
    }
}
