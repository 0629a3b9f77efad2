//! Lists of calls with media from a backup (document 02, No. 10), as text: each step with what it must come to.
//!
//! | step | what it is |
//! |---|---|
//! | `cluster 3 4` | a fresh cluster with R and N, K = N |
//! | `take 1 0 → ok 3` | a call of document 01's script, with its fate (`c 1 new` is a cut); so also `trim`, `note`, `read` and `stop` |
//! | `keep 1` | the bytes of replica 1's medium, for the restores that follow |
//! | `restore 1 → ok 2` | with the bytes kept last |
//! | `drive 2 [0,2,1] [] → ok 1, 7` | a recovery (see `recovery_rows`) |
//! | `kept 0,0,0 1,0,0` | the slots of the bytes kept: promise, low-water mark, local low-water mark |
//! | `slots 1 2,0,0 2,0,0` | those of a replica's medium |
//! | `entry 2 1 restored` | the register's entry: session, then `unresolved`, `restored` or a closing mark |
//! | `place 2 1 BB` | the data of a replica's place; nothing, if it is wiped |

use super::recoveries::Recovery;
use super::recovery_rows;
use crate::cluster::{Answer, Call, Closing, Cluster, Entry, Message, Reply, Request, Shape};
use crate::decimal;
use crate::fate::Fate;
use crate::hex;
use crate::medium::{place, Record, Slot, SLOT_BYTES, WIPED};

/// The replaced medium held an acknowledged record: its replica has no vote, and is copied to before others.
pub const EXAMPLE_1: &str = "cluster 3 4
    take 0 0 → ok 1; prep 0 0 0 → ok 0; prep 0 1 0 → ok 0; keep 1; kept 0,0,0 1,0,0
    prep 0 2 0 → ok 0; open 0 0 → ok 0
    issue 0 0 0 9 AA → ok 1; send 0 0 0 → ok 0; send 0 1 0 → ok 1
    restore 1 → ok 2; slots 1 2,0,0 2,0,0; entry 1 1 restored
    take 1 0 → ok 3; prep 1 1 0 → ok 0; prep 1 2 0 → ok 0; open 1 0 → no 8
    prep 1 0 0 → ok 1; open 1 0 → no 8
    copy 1 0 1 0 → ok 1; copy 1 1 2 0 → no 17; copy 1 0 2 0 → ok 1; open 1 0 → ok 1
    entry 0 3 unresolved; entry 1 3 unresolved; entry 2 3 unresolved";

/// The promise: who took before the restore is not heard.
pub const EXAMPLE_2: &str = "cluster 3 4
    take 0 0 → ok 1; prep 0 0 0 → ok 0; prep 0 1 0 → ok 0; keep 1; open 0 0 → ok 0
    issue 0 0 0 9 AA → ok 1; send 0 0 0 → ok 0; send 0 1 0 → ok 1
    take 1 0 → ok 2; restore 1 → ok 3
    prep 1 1 0 → no 19; prep 1 2 0 → ok 0; prep 1 0 0 → ok 1; trim 1 0 0 → no 8; open 1 0 → no 8
    drive 2 [0,2,1] [] → ok 1, 7";

/// Up to where replica 2 alone holds ID 1 of session 1, and the others that of session 2.
const DIVERGED: &str = "cluster 3 4
    take 0 0 → ok 1; prep 0 0 0 → ok 0; prep 0 1 0 → ok 0; prep 0 2 0 → ok 0; open 0 0 → ok 0
    issue 0 0 0 9 AA → ok 1; send 0 2 0 → ok 0; keep 2; kept 0,0,0 1,0,0
    take 1 0 → ok 2; prep 1 0 0 → ok 0; prep 1 1 0 → ok 0; open 1 0 → ok 0
    issue 1 0 0 9 BB → ok 1; send 1 0 0 → ok 0; send 1 1 0 → ok 1; entry 2 1 0";

/// Equal promise: a prepare that was cut behind the slot is made again.
pub const EXAMPLE_3: &str = "restore 2 → ok 3; slots 2 3,0,0 3,0,0; place 2 1 AA
    take 2 0 → ok 4; prep 2 2 c 1 new → silent; place 2 1 AA; prep 2 2 0 → ok 0; place 2 1
    prep 2 0 0 → ok 1; prep 2 1 0 → ok 1; open 2 0 → ok 1; entry 2 1 restored
    entry 0 4 unresolved; entry 1 4 unresolved";

/// Low-water marks: those of the bytes, not of what they replace.
pub const EXAMPLE_4: &str =
    "take 2 0 → ok 3; prep 2 0 0 → ok 1; prep 2 1 0 → ok 1; prep 2 2 0 → ok 0
    copy 2 0 2 0 → ok 1; open 2 0 → ok 1; note 2 2 0 → ok 1; slots 2 3,0,0 3,1,1; place 2 1 BB
    restore 2 → ok 4; slots 2 4,0,0 4,0,0; place 2 1 AA; entry 2 3 restored
    take 3 0 → ok 5; prep 3 2 0 → ok 0; prep 3 0 0 → ok 1; prep 3 1 0 → ok 1; open 3 0 → ok 1
    entry 2 3 restored; entry 0 5 unresolved";

/// Among the Q: one that was restored counts as clean, and 9 is given without it.
pub const EXAMPLE_5: &str = "cluster 5 4
    take 0 0 → ok 1; prep 0 0 0 → ok 0; prep 0 1 0 → ok 0; prep 0 2 0 → ok 0; prep 0 3 0 → ok 0
    prep 0 4 0 → ok 0; keep 4; open 0 0 → ok 0
    issue 0 0 0 9 01 → ok 1; issue 0 0 0 9 02 → ok 2; issue 0 0 0 9 03 → ok 3
    send 0 0 0 → ok 0; send 0 0 0 → ok 0; send 0 0 0 → ok 0; send 0 1 0 → ok 0; send 0 1 0 → ok 0
    send 0 2 0 → ok 1; send 0 2 0 → ok 2; send 0 3 0 → ok 2; send 0 4 0 → ok 2; send 0 4 0 → ok 2
    restore 4 → ok 2
    take 1 0 → ok 3; prep 1 0 0 → ok 3; prep 1 1 0 → ok 2; prep 1 2 0 → ok 2; prep 1 3 0 → ok 1
    prep 1 4 0 → ok 0; open 1 0 → no 9; copy 1 0 4 0 → ok 1; copy 1 0 4 0 → ok 2; open 1 0 → ok 2
    entry 1 3 unresolved; entry 2 3 unresolved; entry 4 3 unresolved; entry 0 1 2; entry 3 1 2";

/// Each as a whole list.
pub fn examples() -> [String; 5] {
    [
        EXAMPLE_1.to_string(),
        EXAMPLE_2.to_string(),
        diverged(EXAMPLE_3),
        diverged(EXAMPLE_4),
        EXAMPLE_5.to_string(),
    ]
}

/// The steps behind those that make the replicas differ. The bytes kept last are replica 2's, with its own ID 1.
pub fn diverged(steps: &str) -> String {
    format!("{DIVERGED}\n{steps}")
}

/// Who plays the steps.
pub trait Stage {
    fn fresh(&mut self, shape: Shape);
    fn cluster(&self) -> &Cluster;
    fn call(&mut self, call: &Call) -> Reply;
    fn recover(&mut self, recovery: &Recovery) -> (Reply, u64);
    /// The medium's bytes are kept.
    fn keep(&mut self, _replica: u64) {}
}

impl Stage for Cluster {
    fn fresh(&mut self, shape: Shape) {
        *self = Cluster::fresh(shape).expect("an allowed shape");
    }

    fn cluster(&self) -> &Cluster {
        self
    }

    fn call(&mut self, call: &Call) -> Reply {
        self.apply(&mut call.clone())
    }

    fn recover(&mut self, recovery: &Recovery) -> (Reply, u64) {
        recovery.apply(self)
    }
}

/// Plays the steps, each of which must come to what it says.
pub fn play(stage: &mut impl Stage, steps: &str) {
    let mut kept = Vec::new();
    for step in steps.split(['\n', ';']).map(str::trim) {
        let played = play_step(stage, &mut kept, step);
        played.unwrap_or_else(|| panic!("no step: {step}"));
    }
}

fn play_step(stage: &mut impl Stage, kept: &mut Vec<u8>, step: &str) -> Option<()> {
    if let Some((call, outcome)) = step.split_once('→') {
        assert_eq!(reply_to(stage, kept, call.trim(), step)?, outcome.trim(), "{step}");
        return Some(());
    }
    let fields: Vec<&str> = step.split(' ').collect();
    match fields[..] {
        ["cluster", replicas, places] => {
            stage.fresh(Shape::whole(numeral(replicas)?, numeral(places)?));
        }
        ["keep", replica] => {
            let replica = numeral(replica)?;
            stage.keep(replica);
            *kept = stage.cluster().medium(replica as usize).to_vec();
        }
        ["kept", first, second] => assert_slots(kept, [first, second], step)?,
        _ => look(stage.cluster(), &fields, step)?,
    }
    Some(())
}

/// What a call, a restore or a recovery comes to.
fn reply_to(stage: &mut impl Stage, kept: &[u8], words: &str, step: &str) -> Option<String> {
    Some(match words.split_once(' ')? {
        ("drive", _) => recovery_rows::outcome(stage.recover(&recovery_rows::parse(step)?.0)),
        ("restore", replica) => {
            let (replica, backup) = (numeral(replica)?, kept.to_vec());
            reply_text(stage.call(&Call::Restore { replica, backup }))
        }
        _ => reply_text(stage.call(&call_of(words)?)),
    })
}

/// What the cluster is at this step.
fn look(cluster: &Cluster, fields: &[&str], step: &str) -> Option<()> {
    let replica = numeral(fields.get(1)?)? as usize;
    match (fields[0], &fields[2..]) {
        ("slots", &[first, second]) => {
            assert_slots(cluster.medium(replica), [first, second], step)?;
        }
        ("entry", &[session, closing]) => {
            let closing = match closing {
                "unresolved" => Closing::Unresolved,
                "restored" => Closing::Restored,
                mark => Closing::Mark(numeral(mark)?),
            };
            let entry = Entry { session: numeral(session)?, closing };
            assert_eq!(cluster.records.register.entries[replica], entry, "{step}");
        }
        ("place", &[number]) => {
            assert!(place(cluster.medium(replica), numeral(number)?) == WIPED, "{step}");
        }
        ("place", &[number, data]) => {
            let number = numeral(number)?;
            let bytes = place(cluster.medium(replica), number);
            let record = Record::decode(number, &bytes).expect("a valid place");
            assert_eq!(hex::encode(record.data), data, "{step}");
        }
        _ => return None,
    }
    Some(())
}

fn assert_slots(medium: &[u8], expected: [&str; 2], step: &str) -> Option<()> {
    for (index, text) in expected.into_iter().enumerate() {
        let fields: Vec<u64> = text.split(',').map(numeral).collect::<Option<_>>()?;
        let [promise, low, local] = fields[..] else {
            return None;
        };
        let slot = Slot::decode(&medium[index * SLOT_BYTES..][..SLOT_BYTES]);
        assert_eq!(slot, Some(Slot { promise, low, local }), "{step}");
    }
    Some(())
}

/// The call in the script's words, with its fate behind the numbers.
fn call_of(words: &str) -> Option<Call> {
    let (word, fields) = words.split_once(' ')?;
    if word == "issue" {
        return issue_of(fields);
    }
    let (numbers, fate) = fields.split_once(" c ").map_or((fields, None), |(numbers, cut)| {
        (numbers, recovery_rows::fate(&format!("c {cut}")))
    });
    let mut numbers: Vec<u64> = numbers.split(' ').map(numeral).collect::<Option<_>>()?;
    if word == "stop" {
        return Some(Call::Stop { server: numbers[0] });
    }
    let fate = match fate {
        Some(cut) => cut,
        None => Fate::of_code(numbers.pop()?),
    };
    let message = Message::new(fate);
    Some(match (word, &numbers[..]) {
        ("take", &[server]) => Call::Take { server, fate },
        ("open", &[server]) => Call::Open { server, fate },
        ("prep", &[server, replica]) => Call::Prepare { server, replica, message },
        ("trim", &[server, replica]) => Call::Trim { server, replica, message },
        ("send", &[server, replica]) => Call::Send { server, replica, message },
        ("note", &[server, replica]) => Call::Note { server, replica, message },
        ("copy", &[server, from, to]) => Call::Copy { server, from, to, message },
        ("read", &[server, replica, id]) => Call::Read { server, replica, id, message },
        _ => return None,
    })
}

fn issue_of(fields: &str) -> Option<Call> {
    let fields: Vec<&str> = fields.split(' ').collect();
    let [server, client_mark, generation, header, data] = fields[..] else {
        return None;
    };
    let [generation, header] = [generation, header].map(|it| numeral(it).map(|it| it as u32));
    let (client, data) = (100, hex::decode(data.as_bytes())?);
    let (client_mark, generation, header) = (numeral(client_mark)?, generation?, header?);
    let request = Request { client_mark, client, generation, header, data, ..Request::default() };
    Some(Call::Issue { server: numeral(server)?, request })
}

fn numeral(field: &str) -> Option<u64> {
    decimal::number(field.as_bytes())
}

/// A reply as steps have it.
fn reply_text(reply: Reply) -> String {
    match reply {
        Ok(Answer::Nothing) => "ok".to_string(),
        Ok(Answer::Number(value)) => format!("ok {value}"),
        Ok(Answer::Bytes(_)) => "bytes".to_string(),
        Ok(Answer::Silent) => "silent".to_string(),
        Err(refusal) => format!("no {}", refusal.number()),
    }
}
