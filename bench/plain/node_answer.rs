//! How the answers of DataNodes are printed.

use crate::answer::Printer;
use crate::data_node::{Answer, NodeRefusal, ReplicaRefusal, Told};
use crate::plans::PlanRefusal;
use crate::tokens::TokenRefusal;

/// How many bytes are spelled at a time.
const SPELLED: usize = 512;

fn hex_digit(value: u8) -> u8 {
    if value < 10 {
        b'0' + value
    } else {
        b'a' + value - 10
    }
}

impl Printer<'_> {
    fn push_hex(&mut self, bytes: &[u8]) {
        self.text.reserve(2 * bytes.len());
        let mut digits = [0; 2 * SPELLED];
        for piece in bytes.chunks(SPELLED) {
            for (two, byte) in digits.chunks_exact_mut(2).zip(piece) {
                two[0] = hex_digit(byte >> 4);
                two[1] = hex_digit(byte & 0xf);
            }
            self.push(str::from_utf8(&digits[..2 * piece.len()]).expect("digits"));
        }
    }

    fn push_told(&mut self, told: &Told) {
        let (word, number) = match told {
            Told::Begun => return self.push("ok begun"),
            Told::Removed => return self.push("ok removed"),
            Told::Noted => return self.push("ok noted"),
            Told::Replica(stamp, length, is_writing) => {
                self.push("ok replica ");
                self.push_number(*stamp);
                self.push(" ");
                self.push_number(*length);
                return self.push(if *is_writing {
                    " writing"
                } else {
                    " finalized"
                });
            }
            Told::Length(length, nodes) => {
                self.push("ok length ");
                self.push_number(*length);
                self.push(" nodes ");
                return self.push_nodes(nodes);
            }
            Told::Read(bytes) => {
                self.push(if bytes.is_empty() {
                    "ok read"
                } else {
                    "ok read "
                });
                return self.push_hex(bytes);
            }
            Told::Taken(length) => ("ok taken ", *length),
            Told::Finalized(length) => ("ok finalized ", *length),
            Told::Copied(length) => ("ok copied ", *length),
            Told::Stored(length) => ("ok stored ", *length),
            Told::Updated(length) => ("ok updated ", *length),
            Told::Committed(length) => ("ok committed ", *length),
            Told::Asked(count) => ("ok asked ", *count as u64),
            Told::Keys(count) => ("ok keys ", *count as u64),
        };
        self.push(word);
        self.push_number(number);
    }

    fn push_token_refusal(&mut self, refusal: TokenRefusal) {
        self.push(match refusal {
            TokenRefusal::Malformed => "T1 Malformed",
            TokenRefusal::UnknownKey => "T2 UnknownKey",
            TokenRefusal::CodeMismatch => "T3 CodeMismatch",
            TokenRefusal::Expired => "T4 Expired",
            TokenRefusal::WrongUser => "T5 WrongUser",
            TokenRefusal::WrongBlock => "T6 WrongBlock",
            TokenRefusal::WrongMode => "T7 WrongMode",
        });
    }

    fn push_replica_refusal(&mut self, refusal: &ReplicaRefusal) {
        match refusal {
            ReplicaRefusal::NoReplica => self.push("R1 NoReplica"),
            ReplicaRefusal::StampDiffers(stamp) => {
                self.push("R2 StampDiffers ");
                self.push_number(*stamp);
            }
            ReplicaRefusal::OutOfRange => self.push("R3 OutOfRange"),
            ReplicaRefusal::NotWritable => self.push("R4 NotWritable"),
            ReplicaRefusal::OffsetGap(length) => {
                self.push("R5 OffsetGap ");
                self.push_number(*length);
            }
            ReplicaRefusal::ReplicaExists => self.push("R6 ReplicaExists"),
        }
    }

    fn push_plan_refusal(&mut self, refusal: &PlanRefusal) {
        match refusal {
            PlanRefusal::AlreadyBegun(stamp) => {
                self.push("P1 AlreadyBegun ");
                self.push_number(*stamp);
            }
            PlanRefusal::Stranger => self.push("P2 Stranger"),
            PlanRefusal::Doubled => self.push("P3 Doubled"),
            PlanRefusal::NoReplicaAnswered => self.push("P4 NoReplicaAnswered"),
        }
    }

    /// What a DataNode answers to a call.
    pub fn push_called(&mut self, answer: &Answer) {
        match answer {
            Ok(told) => self.push_told(told),
            Err(refusal) => {
                self.push("refused ");
                match refusal {
                    NodeRefusal::Token(refusal) => self.push_token_refusal(*refusal),
                    NodeRefusal::Replica(refusal) => self.push_replica_refusal(refusal),
                    NodeRefusal::Plan(refusal) => self.push_plan_refusal(refusal),
                }
            }
        }
    }
}
