//! The proved package and the second program side by side: each call goes to both, and all that they say and leave
//! is compared.

use crate::proved::{told_of, Call, Proved, Told, TOLD};
use crate::record::{self, Bytes};
use crate::tally::Tally;
use second::net::Net;
use second::reply::Reply;

/// Why a history stops before its end.
pub enum Ended {
    /// As many calls as were asked for.
    Enough,
    /// What differs, and at which call.
    Differs(String),
}

pub struct Pair {
    proved: Proved,
    pub second: Net,
    pub tally: Tally,
    pub most_calls: u64,
    pub shows_calls: bool,
}

impl Pair {
    pub fn new(most_calls: u64) -> Pair {
        Pair {
            proved: Proved::new(),
            second: Net::new(),
            tally: Tally::new(),
            most_calls,
            shows_calls: false,
        }
    }

    /// Both get this record.
    pub fn adopt(&mut self, net: &Net, filler: u8) {
        self.proved.adopt(net, filler);
        self.second = net.clone();
        if self.shows_calls {
            println!("both get a record: {:?}", net);
        }
    }

    pub fn call(&mut self, call: Call) -> Result<Reply, Ended> {
        if self.tally.calls >= self.most_calls {
            return Err(Ended::Enough);
        }
        if self.shows_calls {
            println!("{}", said(&call));
        }
        let record_before = *self.proved.record();
        let before = self.second.clone();
        let told = self.proved.call(&call).told();
        let reply = match &call {
            Call::SetUp(bytes) => self.second.set_up(bytes),
            Call::Launch(at, bytes) => self.second.launch(*at, bytes),
            Call::Step(slot) => self.second.step(*slot),
        };
        if self.shows_calls {
            println!("  proved {:?}, second {:?}", told, told_of(&reply));
        }
        self.tally.count(&call, &before, &reply, &self.second);
        match self.difference(&call, &record_before, &told, &reply) {
            Some(what) => Err(Ended::Differs(format!(
                "{}\nat the call {}",
                what,
                said(&call)
            ))),
            None => Ok(reply),
        }
    }

    fn difference(
        &self,
        call: &Call,
        before: &Bytes,
        told: &Told,
        reply: &Reply,
    ) -> Option<String> {
        let expected = told_of(reply);
        if let Some(at) = (0..told.len()).find(|&at| told[at] != expected[at]) {
            let (field, is, other) = (TOLD[at], told[at], expected[at]);
            return Some(format!(
                "the answer's {}: proved {}, second {}",
                field, is, other
            ));
        }
        let record = self.proved.record();
        let expected = record::bytes_of(&self.second, 0);
        if let Some(at) = record::first_difference(record, &expected) {
            let (field, is, other) = (record::field_at(at), record[at], expected[at]);
            return Some(format!(
                "byte {} of the record, in {}: proved {}, second {}",
                at, field, is, other
            ));
        }
        if record::net_of(record) != self.second {
            return Some("the record, field by field".to_string());
        }
        let is_refused = !reply.is_done();
        if let Some(at) = record::first_difference(record, before).filter(|_| is_refused) {
            return Some(format!(
                "a refusal changed the record in {}",
                record::field_at(at)
            ));
        }
        if !self.proved.kept_to_its_own(call.bytes()) {
            return Some("a byte that was lent, or that stands beside what was lent".to_string());
        }
        None
    }
}

fn said(call: &Call) -> String {
    let hex = |bytes: &[u8]| {
        bytes
            .iter()
            .map(|byte| format!("{:02x}", byte))
            .collect::<String>()
    };
    match call {
        Call::SetUp(bytes) => format!("set_up {}", hex(bytes)),
        Call::Launch(at, bytes) => format!("launch {} {}", at, hex(bytes)),
        Call::Step(slot) => format!("step {}", slot),
    }
}
