//! Case `H`: calls on a holder.

use crate::bytes::Fields;
use crate::holder::Holder;
use crate::kind::Kind;
use crate::refusal::Fault;

/// `H`: a new holder, and the calls on it.
pub fn called(body: &[u8]) -> Option<String> {
    let mut fields = Fields::of(body);
    let mut holder = Holder::new(Kind::of_case(fields.byte()?));
    let mut line = "holder".to_string();
    while let Some(answer) = call(&mut holder, &mut fields) {
        line.push(' ');
        line += &answer;
    }
    Some(line)
}

/// The answer to the next call; none where there is no further whole call.
fn call(holder: &mut Holder, fields: &mut Fields) -> Option<String> {
    Some(match fields.byte()? {
        0 => {
            holder.clear();
            done()
        }
        1 => holder.count().to_string(),
        2 => answered(holder.rank(fields.short()?).map(|place| place.to_string())),
        3 => answered(holder.at(usize::from(fields.short()?)).map(|code| code.to_string())),
        4 => answered(holder.add(fields.short()?).map(|()| done())),
        5 => answered(holder.take(fields.short()?).map(|()| done())),
        _ => return None,
    })
}

/// What is told of a call that answers nothing.
fn done() -> String {
    "done".to_string()
}

/// What is told of a call's answer or refusal.
fn answered(answer: Result<String, Fault>) -> String {
    answer.unwrap_or_else(|fault| format!("!{}", fault.number()))
}
