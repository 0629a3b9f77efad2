//! The forms of a line.

use super::LINE_LIMIT;
use crate::cluster::{Call, Message, Request, Shape};
use crate::decimal::number;
use crate::fate::Fate;
use crate::hex;

/// What the script fills in as client (document 02, No. 6): the first of the booking system, so that its
/// requests are never a gate's. Partition and sequence stay 0.
const CLIENT: u32 = 100;

/// What a line that fits a form asks for.
#[derive(Debug, PartialEq, Eq)]
pub enum Form {
    Cluster(Shape),
    Call(Call),
}

/// `None` for a bad line.
pub fn parse(line: &[u8]) -> Option<Form> {
    if line.len() > LINE_LIMIT {
        return None;
    }
    let mut fields = Fields(line.split(|&byte| byte == b'\t'));
    let form = match fields.next()? {
        // The line names R and N; the script uses K = N.
        b"cluster" => Form::Cluster(Shape::whole(fields.number()?, fields.number()?)),
        word => Form::Call(fields.call(word)?),
    };
    fields.end()?;
    Some(form)
}

/// The fields of a line that are still to be read.
struct Fields<I>(I);

impl<'a, I: Iterator<Item = &'a [u8]>> Fields<I> {
    fn next(&mut self) -> Option<&'a [u8]> {
        self.0.next()
    }

    /// A line with more fields than its form fits none.
    fn end(&mut self) -> Option<()> {
        self.next().is_none().then_some(())
    }

    fn call(&mut self, word: &[u8]) -> Option<Call> {
        Some(match word {
            b"take" => Call::Take { server: self.number()?, fate: self.fate()? },
            b"prep" => Call::Prepare {
                server: self.number()?,
                replica: self.number()?,
                message: self.message()?,
            },
            b"copy" => Call::Copy {
                server: self.number()?,
                from: self.number()?,
                to: self.number()?,
                message: self.message()?,
            },
            b"open" => Call::Open { server: self.number()?, fate: self.fate()? },
            b"issue" => Call::Issue { server: self.number()?, request: self.request()? },
            b"send" => Call::Send {
                server: self.number()?,
                replica: self.number()?,
                message: self.message()?,
            },
            _ => return None,
        })
    }

    /// Client mark, generation, header and data, then each lock.
    fn request(&mut self) -> Option<Request> {
        let client_mark = self.number()?;
        let generation = self.word()?;
        let header = self.word()?;
        let data = hex::decode(self.next()?)?;
        let locks = self.0.by_ref().map(number).collect::<Option<Vec<u64>>>()?;
        let (client, partition, sequence) = (CLIENT, 0, 0);
        Some(Request { client_mark, client, generation, partition, sequence, header, data, locks })
    }

    fn number(&mut self) -> Option<u64> {
        number(self.next()?)
    }

    /// A number of 32 bits.
    fn word(&mut self) -> Option<u32> {
        self.number()?.try_into().ok()
    }

    fn fate(&mut self) -> Option<Fate> {
        match self.number()? {
            0 => Some(Fate::Answered),
            1 => Some(Fate::Lost),
            2 => Some(Fate::AnswerLost),
            _ => None,
        }
    }

    fn message(&mut self) -> Option<Message> {
        self.fate().map(Message::new)
    }
}
