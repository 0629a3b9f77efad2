//! What this implementation answers to a list of vectors.

use super::conversions::LENGTH_LIMIT;
use super::fields::Fields;
use crate::convert;
use crate::crc::crc32;
use crate::fate::perform;
use crate::hex;
use crate::medium::{self, Record, Slot, DATA_LIMIT};
use crate::replica::{Closing, Found, Operation};
use crate::segment::{self, Pair};

/// The longest line that may fit a form, without its newline.
pub const LINE_LIMIT: usize = 130_000;

/// The answers to all lines of `input`, a line each.
pub fn output(input: &str) -> String {
    input.lines().map(|line| answer(line).unwrap_or("bad".to_string()) + "\n").collect()
}

/// `None` for a line that fits no form.
fn answer(line: &str) -> Option<String> {
    if line.len() > LINE_LIMIT {
        return None;
    }
    let (command, rest) = line.split_once('\t')?;
    let mut fields = Fields::new(rest);
    let answer = match command {
        "crc" => format!("{:08X}", crc32(&fields.bytes()?)),
        "place" => place(&mut fields)?,
        "slot" => slot(&mut fields)?,
        "record" => record(&mut fields)?,
        "slotof" => slot_of(&mut fields)?,
        "medium" => medium(&mut fields)?,
        "pair" => pair(&mut fields)?,
        "import" => import(&mut fields)?,
        "convert" => convert(&mut fields)?,
        _ => operation(command, &mut fields)?,
    };
    fields.end()?;
    Some(answer)
}

fn place(fields: &mut Fields) -> Option<String> {
    let number = fields.number()?;
    let bytes = fields.place()?;
    let Some(record) = Record::decode(number, &bytes) else {
        return Some("0".to_string());
    };
    let Record { id, client, generation, partition, sequence, header, data } = record;
    let (length, data) = (data.len(), hex::encode(data));
    Some(format!(
        "1\t{id}\t{client}\t{generation}\t{partition}\t{sequence}\t{header}\t{length}\t{data}"
    ))
}

fn slot(fields: &mut Fields) -> Option<String> {
    let bytes = fields.slot()?;
    Some(match Slot::decode(&bytes) {
        Some(slot) => format!("1\t{}", slot_text(slot)),
        None => "0".to_string(),
    })
}

fn record(fields: &mut Fields) -> Option<String> {
    let id = fields.number()?;
    let [client, generation, partition] = [fields.word()?, fields.word()?, fields.word()?];
    let (sequence, header) = (fields.number()?, fields.word()?);
    let data = &fields.bytes().filter(|data| data.len() <= DATA_LIMIT)?;
    let record = Record { id, client, generation, partition, sequence, header, data };
    Some(hex::encode(&record.encode()))
}

fn slot_of(fields: &mut Fields) -> Option<String> {
    let [promise, low, local] = fields.numbers()?;
    Some(hex::encode(&Slot { promise, low, local }.encode()))
}

fn medium(fields: &mut Fields) -> Option<String> {
    let places = fields.number()?;
    let bytes = fields.medium(places)?;
    let (index, slot) = medium::current(&bytes).unwrap_or((2, Slot::default()));
    Some(format!("{}\t{index}\t{}", medium::mark(&bytes), slot_text(slot)))
}

fn slot_text(slot: Slot) -> String {
    format!("{}\t{}\t{}", slot.promise, slot.low, slot.local)
}

fn pair(fields: &mut Fields) -> Option<String> {
    let stamp = fields.stamp()?;
    let places = fields.number()?;
    let bytes = fields.medium(places)?;
    let Pair { data, index } = segment::written(&bytes, medium::mark(&bytes), stamp);
    Some(format!("{}\t{}", hex::encode(&data), hex::encode(&index)))
}

fn import(fields: &mut Fields) -> Option<String> {
    let places = fields.number()?;
    let stamp = fields.stamp()?;
    let [mut medium, data, index] = [fields.bytes()?, fields.bytes()?, fields.bytes()?];
    let reply = segment::import(places, &mut medium, stamp, &data, &index);
    Some(with_check(reply.map_err(|unfit| unfit.number()), &medium))
}

fn convert(fields: &mut Fields) -> Option<String> {
    let old = fields.bytes()?;
    let length = fields.number().filter(|&length| length <= LENGTH_LIMIT)?;
    let fill = u8::try_from(fields.number()?).ok()?;
    let mut new = vec![fill; length as usize];
    let reply = convert::convert(&old, &mut new);
    Some(with_check(reply.map_err(|declined| declined.number()), &new))
}

/// ok, or no and the number; behind it the check of what was written.
fn with_check(reply: Result<(), u64>, written: &[u8]) -> String {
    let reply = match reply {
        Ok(()) => "ok".to_string(),
        Err(number) => format!("no\t{number}"),
    };
    format!("{reply}\t{:08X}", crc32(written))
}

fn operation(command: &str, fields: &mut Fields) -> Option<String> {
    let places = fields.number()?;
    let operation = match command {
        "prepare" => Operation::Prepare {
            session: fields.number()?,
            closing: fields.number()?.checked_sub(1).map_or(Closing::Unresolved, Closing::Mark),
        },
        "append" => Operation::Append(fields.place()?),
        "truncate" => Operation::Truncate(fields.number()?),
        "note" => Operation::Note { low: fields.number()?, local: fields.number()? },
        _ => return None,
    };
    let fate = fields.fate()?;
    let given = fields.place()?;
    let mut bytes = fields.medium(places)?;
    let found = Found::on(&bytes)?;
    perform(&mut bytes, operation.writes(found), fate, &given);
    Some(hex::encode(&bytes))
}
