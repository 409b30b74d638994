//! Makes a plan of a script, in either form: first what serde reads, then the plan.

use std::borrow::Cow;
use std::collections::HashMap;
use std::error::Error;
use std::fmt;
use std::ops::{BitAnd, BitOr, BitXor};

use serde::de::value::MapAccessDeserializer;
use serde::de::{self, Deserializer, MapAccess, Visitor};
use serde::Deserialize;

use crate::plan::{Act, Call, Kind, Move, Operand, Plan, Script, View};

const MAX_TEXT: usize = 1 << 20;
const MAX_BLOCK: usize = 1 << 16;
const MAX_SAFE_INTEGER: i64 = (1 << 53) - 1;

#[derive(Deserialize)]
#[serde(deny_unknown_fields)]
struct ScriptText<'a> {
    bytes: Option<usize>,
    blocks: Option<Vec<usize>>,
    #[serde(borrow)]
    views: Vec<ViewText<'a>>,
    #[serde(borrow)]
    agents: Vec<AgentText<'a>>,
    schedule: Vec<Move>,
}

#[derive(Deserialize)]
#[serde(deny_unknown_fields)]
pub struct ViewText<'a> {
    #[serde(borrow)]
    pub name: Cow<'a, str>,
    kind: Kind,
    block: Option<usize>,
    offset: usize,
    // Without `deserialize_with` serde takes a missing member for null.
    #[serde(deserialize_with = "Option::deserialize")]
    length: Option<usize>,
}

#[derive(Deserialize)]
#[serde(deny_unknown_fields)]
struct AgentText<'a> {
    block: bool,
    #[serde(borrow)]
    calls: Vec<CallText<'a>>,
}

#[derive(Clone, Copy, Deserialize)]
#[serde(rename_all = "camelCase")]
enum Function {
    Load,
    Store,
    Exchange,
    Add,
    Sub,
    And,
    Or,
    Xor,
    CompareExchange,
    Wait,
    Notify,
}

/// A call, which a script spells as an array.
#[derive(Deserialize)]
pub struct CallText<'a> {
    function: Function,
    #[serde(borrow)]
    view: Cow<'a, str>,
    index: i64,
    #[serde(default)]
    first: Option<Operand>,
    #[serde(default)]
    second: Option<Operand>,
}

#[derive(Deserialize)]
#[serde(deny_unknown_fields)]
struct TimeUpText {
    timeout: usize,
}

impl<'de> Deserialize<'de> for Operand {
    fn deserialize<D: Deserializer<'de>>(deserializer: D) -> Result<Self, D::Error> {
        struct OperandVisitor;
        impl Visitor<'_> for OperandVisitor {
            type Value = Operand;

            fn expecting(&self, out: &mut fmt::Formatter) -> fmt::Result {
                out.write_str("a whole number or a string")
            }

            fn visit_i64<E: de::Error>(self, number: i64) -> Result<Operand, E> {
                let is_safe = (-MAX_SAFE_INTEGER..=MAX_SAFE_INTEGER).contains(&number);
                is_safe.then_some(Operand::Number(number)).ok_or_else(|| E::custom("a number beyond 2^53 - 1"))
            }

            fn visit_u64<E: de::Error>(self, number: u64) -> Result<Operand, E> {
                self.visit_i64(number.try_into().unwrap_or(i64::MAX))
            }

            fn visit_str<E: de::Error>(self, text: &str) -> Result<Operand, E> {
                let digits = text.strip_prefix('-').unwrap_or(text);
                let is_spelled = text == "0" || !digits.starts_with(['0', '+']);
                let number = text.parse().ok().filter(|_| is_spelled);
                number.map(Operand::BigInt).ok_or_else(|| E::custom("a string that is no BigInt"))
            }
        }
        deserializer.deserialize_any(OperandVisitor)
    }
}

impl<'de> Deserialize<'de> for Move {
    fn deserialize<D: Deserializer<'de>>(deserializer: D) -> Result<Self, D::Error> {
        struct MoveVisitor;
        impl<'de> Visitor<'de> for MoveVisitor {
            type Value = Move;

            fn expecting(&self, out: &mut fmt::Formatter) -> fmt::Result {
                out.write_str("a whole number or an object")
            }

            fn visit_u64<E: de::Error>(self, agent: u64) -> Result<Move, E> {
                Ok(Move { agent: agent as usize, is_time_up: false })
            }

            fn visit_map<A: MapAccess<'de>>(self, members: A) -> Result<Move, A::Error> {
                let text = TimeUpText::deserialize(MapAccessDeserializer::new(members))?;
                Ok(Move { agent: text.timeout, is_time_up: true })
            }
        }
        deserializer.deserialize_any(MoveVisitor)
    }
}

impl Plan {
    /// Reads a script.
    pub fn read(text: &[u8]) -> Result<Plan, Box<dyn Error>> {
        ensure(text.len() <= MAX_TEXT, "the script is too long")?;
        let script: ScriptText = serde_json::from_slice(text)?;
        let is_older = script.bytes.is_some();
        let blocks = match (script.bytes, script.blocks) {
            (Some(length), None) => vec![length],
            (None, Some(lengths)) => lengths,
            _ => return Err("a script has either bytes or blocks".into()),
        };
        ensure((1..=4).contains(&blocks.len()), "a script has 1 to 4 blocks")?;
        ensure(blocks.iter().all(|&length| length <= MAX_BLOCK), "a block is too long")?;
        ensure(script.views.len() <= 64 && script.agents.len() <= 16, "there are too many views or agents")?;
        ensure(script.schedule.len() <= 100_000, "there are too many moves")?;
        let is_of_form = script.views.iter().all(|text| text.block.is_none() == is_older);
        ensure(is_of_form, "a view is of the other form")?;
        let (views, names) = named_views(&script.views, &blocks)?;
        let agents = script.agents.iter().map(|text| Script::new(text, &names)).collect::<Result<Vec<_>, _>>()?;
        ensure(script.schedule.iter().all(|it| it.agent < agents.len()), "a move names no agent")?;
        Ok(Plan { blocks, views, agents, schedule: script.schedule })
    }
}

/// Makes the views, and finds their positions by their names.
pub fn named_views<'a>(
    texts: &'a [ViewText],
    blocks: &[usize],
) -> Result<(Vec<View>, HashMap<&'a str, usize>), Box<dyn Error>> {
    let mut names = HashMap::new();
    let views = texts.iter().map(|text| View::new(text, blocks)).collect::<Result<Vec<_>, _>>()?;
    for text in texts {
        ensure(names.insert(&*text.name, names.len()).is_none(), "two views have one name")?;
    }
    Ok((views, names))
}

impl View {
    fn new(text: &ViewText, blocks: &[usize]) -> Result<View, Box<dyn Error>> {
        let is_named = text.name.bytes().all(|byte| byte.is_ascii_alphanumeric() || byte == b'_');
        ensure(is_named && (1..=32).contains(&text.name.len()), "a view's name is of a wrong form")?;
        let (size, block) = (text.kind.size(), text.block.unwrap_or(0));
        let bytes = *blocks.get(block).ok_or("a view names no block")?;
        let room = bytes.checked_sub(text.offset).filter(|_| text.offset % size == 0).ok_or("a view has no place")?;
        let (length, fits) = match text.length {
            Some(length) => (length, length <= room / size),
            None => (room / size, bytes % size == 0),
        };
        ensure(fits, "a view doesn't fit its block")?;
        Ok(View { kind: text.kind, block, offset: text.offset, length })
    }
}

impl Script {
    fn new(text: &AgentText, names: &HashMap<&str, usize>) -> Result<Script, Box<dyn Error>> {
        ensure(text.calls.len() <= 1_000, "an agent has too many calls")?;
        let calls = text.calls.iter().map(|call| Call::new(call, names)).collect::<Result<_, _>>()?;
        Ok(Script { can_block: text.block, calls })
    }
}

impl Call {
    pub fn new(text: &CallText, names: &HashMap<&str, usize>) -> Result<Call, Box<dyn Error>> {
        ensure((-MAX_SAFE_INTEGER..=MAX_SAFE_INTEGER).contains(&text.index), "an index is beyond 2^53 - 1")?;
        let view = *names.get(&*text.view).ok_or("a call names no view")?;
        let act = match (text.function, text.first, text.second) {
            (Function::Load, None, None) => Act::Load,
            (Function::Store, Some(value), None) => Act::Store(value),
            (Function::Exchange, Some(value), None) => Act::Modify(|_, value| value, value),
            (Function::Add, Some(value), None) => Act::Modify(u64::wrapping_add, value),
            (Function::Sub, Some(value), None) => Act::Modify(u64::wrapping_sub, value),
            (Function::And, Some(value), None) => Act::Modify(u64::bitand, value),
            (Function::Or, Some(value), None) => Act::Modify(u64::bitor, value),
            (Function::Xor, Some(value), None) => Act::Modify(u64::bitxor, value),
            (Function::CompareExchange, Some(expected), Some(new)) => Act::CompareExchange(expected, new),
            (Function::Wait, Some(value), None) => Act::Wait { value, is_timed: false },
            (Function::Wait, Some(value), Some(Operand::Number(_))) => Act::Wait { value, is_timed: true },
            (Function::Notify, None, None) => Act::Notify { count: None },
            (Function::Notify, Some(Operand::Number(count)), None) => Act::Notify { count: Some(count) },
            _ => return Err("a call takes something else".into()),
        };
        Ok(Call { act, view, index: text.index })
    }
}

pub fn ensure(holds: bool, why: &'static str) -> Result<(), Box<dyn Error>> {
    if holds {
        Ok(())
    } else {
        Err(why.into())
    }
}
