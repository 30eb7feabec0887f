//! A separate reading of two grammars joined into one: the request's sentences, over rows and enumerants as the reading of grammars has them.

use crate::reading::Grammar;
use std::collections::BTreeMap;

/// What joining answers, and the bytes that it writes.
#[derive(Clone, Debug, PartialEq, Eq)]
pub struct Joined {
    pub number: u32,
    pub place: u32,
    pub value: u32,
    pub bytes: Vec<u8>,
}

fn refused(number: u32, place: u32, value: u32) -> Joined {
    Joined { number, place, value, bytes: vec![] }
}

/// What is in both by its key, and not the same.
fn clash<K: Ord + Copy, V: PartialEq>(first: &BTreeMap<K, V>, second: &BTreeMap<K, V>) -> Option<K> {
    first.iter().find(|(key, value)| second.get(key).is_some_and(|other| other != *value)).map(|(key, _)| *key)
}

/// Two grammars joined, into an output of this length.
pub fn join(first: &[u8], second: &[u8], output: usize) -> Joined {
    // "24 for the first input, 24 for the second"
    let (Some(first), Some(second)) = (Grammar::read(first), Grammar::read(second)) else {
        return refused(24, 0, 0);
    };
    let rows = |g: &Grammar| -> BTreeMap<u16, Vec<(u8, u8)>> { g.rows.iter().map(|r| (r.opcode, r.operands.clone())).collect() };
    let values =
        |g: &Grammar| -> BTreeMap<(u8, u32), Vec<u8>> { g.enumerants.iter().map(|e| ((e.kind, e.value), e.parameters.clone())).collect() };
    let (mut all_rows, mut all_values) = (rows(&first), values(&first));
    // "34 with the lowest clashing opcode as value and place 0, or else the lowest clashing kind as place and its value"
    if let Some(opcode) = clash(&all_rows, &rows(&second)) {
        return refused(34, 0, opcode.into());
    }
    if let Some((kind, value)) = clash(&all_values, &values(&second)) {
        return refused(34, kind.into(), value);
    }
    // "A row or enumerant in both is taken once"
    all_rows.extend(rows(&second));
    all_values.extend(values(&second));
    let mut bytes = vec![];
    for (opcode, operands) in all_rows {
        bytes.push(1);
        bytes.extend(opcode.to_le_bytes());
        operands.iter().for_each(|(kind, quantifier)| bytes.extend([2, *kind, *quantifier]));
    }
    for ((kind, value), parameters) in all_values {
        bytes.extend([3, kind]);
        bytes.extend(value.to_le_bytes());
        parameters.iter().for_each(|kind| bytes.extend([4, *kind]));
    }
    // "24 when the union breaks a rule, 35 when it does not fit"
    if Grammar::read(&bytes).is_none() {
        return refused(24, 0, 0);
    }
    if bytes.len() > output {
        return refused(35, 0, 0);
    }
    Joined { number: 0, place: 0, value: 0, bytes }
}
