//! Updating a tuple, and the undo list of an update.

use super::values::{self, Value};
use super::Refusal;

/// A tuple's fields, each with its own bytes.
pub type Fields = Vec<Vec<u8>>;

pub const MOST_FIELDS: usize = 64;
pub const MOST_TUPLE_BYTES: usize = 16_384;
pub const MOST_OPERATIONS: usize = 64;
pub const MOST_LIST_BYTES: usize = 32_768;
pub const DEPTH: usize = 12;

/// For a place, a tuple and a list are each one value, so deep at most.
const TUPLE_DEPTH: usize = 13;
const LIST_DEPTH: usize = 14;

/// One operation with the index base taken off its numbers.
pub struct Operation<'a> {
    pub f: i128,
    pub action: Action<'a>,
}

pub enum Action<'a> {
    Add(i128),
    Subtract(i128),
    And(u64),
    Xor(u64),
    Or(u64),
    Assign(&'a [u8]),
    Insert(&'a [u8]),
    Delete(i128),
    Splice { p: i128, count: i128, argument: &'a [u8] },
}

/// The fields of a tuple; none where it is outside the rules (11).
pub fn fields(tuple: &[u8]) -> Option<Fields> {
    let value = values::whole(tuple, 1 + DEPTH)?;
    let fields: Fields = value.array()?.iter().map(|field| field.bytes.to_vec()).collect();
    (fields.len() <= MOST_FIELDS && tuple.len() <= MOST_TUPLE_BYTES).then_some(fields)
}

/// The shortest array header and the fields.
pub fn plain(fields: &Fields) -> Vec<u8> {
    values::array(fields)
}

/// The operations of a list; none where list or index base is outside the rules (12).
pub fn operations(list: &[u8], base: u64) -> Option<Vec<Operation<'_>>> {
    let value = values::whole(list, 2 + DEPTH).filter(|_| base <= 1)?;
    let operations = value.array()?;
    if operations.len() > MOST_OPERATIONS || list.len() > MOST_LIST_BYTES {
        return None;
    }
    operations.iter().map(|operation| decode(operation.array()?, base.into())).collect()
}

fn decode<'a>(parts: &[Value<'a>], base: i128) -> Option<Operation<'a>> {
    let [0xa1, mark] = parts.first()?.bytes else { return None };
    let f = parts.get(1)?.integer()? - base;
    let action = match (mark, &parts[2..]) {
        (b':', [position, count, argument]) => Action::Splice {
            p: Some(position.integer()? - base).filter(|p| *p >= 0)?,
            count: count.integer().filter(|count| *count >= 0)?,
            argument: argument.string()?,
        },
        (b':', _) => return None,
        (_, [argument]) => with_argument(*mark, argument)?,
        _ => return None,
    };
    Some(Operation { f, action })
}

fn with_argument<'a>(mark: u8, argument: &Value<'a>) -> Option<Action<'a>> {
    let bits = || argument.integer().and_then(|n| u64::try_from(n).ok());
    Some(match mark {
        b'+' => Action::Add(argument.integer()?),
        b'-' => Action::Subtract(argument.integer()?),
        b'&' => Action::And(bits()?),
        b'^' => Action::Xor(bits()?),
        b'|' => Action::Or(bits()?),
        b'=' => Action::Assign(argument.bytes),
        b'!' => Action::Insert(argument.bytes),
        b'#' => Action::Delete(argument.integer().filter(|count| *count >= 1)?),
        _ => return None,
    })
}

/// Performs one operation and gives what takes it back, in the undo list's order; or refuses with 13 to 16.
pub fn perform(fields: &mut Fields, operation: &Operation) -> Result<Vec<Vec<u8>>, u32> {
    let may_be_past = matches!(operation.action, Action::Assign(_) | Action::Insert(_));
    let n = fields.len();
    let f = usize::try_from(operation.f).ok().filter(|f| *f < n || may_be_past && *f == n).ok_or(13u32)?;
    let one = values::integer(1);
    let back = match operation.action {
        Action::Insert(new) => {
            fields.insert(f, new.to_vec());
            vec![undoing(b'#', f, &one)]
        }
        Action::Assign(new) if f == n => {
            fields.push(new.to_vec());
            vec![undoing(b'#', f, &one)]
        }
        Action::Delete(count) => {
            let end = n.min(usize::try_from(count).map_or(n, |count| f.saturating_add(count)));
            let removed: Fields = fields.drain(f..end).collect();
            removed.iter().rev().map(|field| undoing(b'!', f, field)).collect()
        }
        _ => {
            let new = changed(&fields[f], &operation.action)?;
            let old = std::mem::replace(&mut fields[f], new);
            vec![undoing(b'=', f, &old)]
        }
    };
    if fields.len() > MOST_FIELDS || plain(fields).len() > MOST_TUPLE_BYTES {
        return Err(16);
    }
    Ok(back)
}

fn undoing(mark: u8, f: usize, argument: &[u8]) -> Vec<u8> {
    values::array(&[values::string(&[mark]), values::integer(f as i128), argument.to_vec()])
}

/// The field's new bytes, or 14 or 15.
fn changed(field: &[u8], action: &Action) -> Result<Vec<u8>, u32> {
    let old = values::whole(field, DEPTH).expect("a field is one value");
    let integer = old.integer().ok_or(14u32);
    let bits = integer.and_then(|n| u64::try_from(n).map_err(|_| 14));
    let ranged = |n: i128| if (-(1 << 63)..1 << 64).contains(&n) { Ok(n) } else { Err(15u32) };
    let number = match action {
        Action::Add(argument) => ranged(integer? + argument)?,
        Action::Subtract(argument) => ranged(integer? - argument)?,
        Action::And(argument) => (bits? & argument).into(),
        Action::Xor(argument) => (bits? ^ argument).into(),
        Action::Or(argument) => (bits? | argument).into(),
        Action::Assign(argument) => return Ok(argument.to_vec()),
        Action::Splice { p, count, argument } => {
            let content = old.string().ok_or(14u32)?;
            let start = (*p).min(content.len() as i128);
            let end = (start + count).min(content.len() as i128);
            return Ok(values::string(&[&content[..start as usize], argument, &content[end as usize..]].concat()));
        }
        Action::Insert(_) | Action::Delete(_) => unreachable!("they change no field"),
    };
    Ok(values::integer(number))
}

/// The fields after the list, and the undo list's operations: 11, 12, then for each operation 13 to 16.
fn run(tuple: &[u8], list: &[u8], base: u64) -> Result<(Fields, Vec<Vec<u8>>), Refusal> {
    let tuple_place = || values::read(tuple, TUPLE_DEPTH).err();
    let list_place = || values::read(list, LIST_DEPTH).err();
    let mut fields = fields(tuple).ok_or_else(|| Refusal { place: tuple_place(), ..11.into() })?;
    let operations = operations(list, base).ok_or_else(|| Refusal { place: list_place(), ..12.into() })?;
    let mut undoing = Vec::new();
    for (index, operation) in operations.iter().enumerate() {
        let back = perform(&mut fields, operation);
        undoing.push(back.map_err(|number| Refusal { operation: index as u32, ..number.into() })?);
    }
    Ok((fields, undoing.into_iter().rev().flatten().collect()))
}

/// The tuple after the list. The buffer, and so 18, is the caller's.
pub fn update(tuple: &[u8], list: &[u8], base: u64) -> Result<Vec<u8>, Refusal> {
    Ok(plain(&run(tuple, list, base)?.0))
}

/// Both, of one press: the tuple after the list, and the undo list.
pub fn press(tuple: &[u8], list: &[u8], base: u64) -> Result<(Vec<u8>, Vec<u8>), Refusal> {
    Ok((update(tuple, list, base)?, undo(tuple, list, base)?))
}

/// The undo list of an update with these inputs, with 17 for one above the limits.
pub fn undo(tuple: &[u8], list: &[u8], base: u64) -> Result<Vec<u8>, Refusal> {
    let operations = run(tuple, list, base)?.1;
    let undo = values::array(&operations);
    if operations.len() > MOST_OPERATIONS || undo.len() > MOST_LIST_BYTES {
        return Err(17.into());
    }
    Ok(undo)
}
