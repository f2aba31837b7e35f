// The wrapper's Arbiter on sequences from standard input, as arbiter.c has them, a line each: HEX CALL CALL .. Writes the same line for each, or
// 'wrong ..'. A state that is not 51 bytes long the type cannot say: its line is 'untyped'. A call that no handle can make is 'untyped' in its
// line: one of a caller that has none, or that its handle has no words for. A reset is tried as the making of a new arbiter too.
mod digits;

use digits::{read_bytes, write_bytes};
use slotfigures::{Arbiter, Refusal};

// A refusal as it is written, with its word compared.
fn refused(r: Refusal) -> Result<String, String> {
    match r.to_string().as_str() {
        "refused 15 0 (register)" | "refused 16 0 (busy)" => {
            Ok(format!("1/{}/{}", r.number, r.place))
        }
        other => Err(format!("words: {other}")),
    }
}

// What a call gives that is made through its caller's handle; none, if that cannot make it.
fn through(arbiter: &Arbiter, kind: &str, n: &[u64]) -> Option<Result<u64, Refusal>> {
    let workshop = arbiter.workshop();
    let own = |caller: &u64, core: &u64| arbiter.core(*caller).ok().filter(|_| caller == core);
    match (kind, n) {
        ("t", [16]) => Some(workshop.tick().map(|()| 0)),
        ("r", [16, core, register]) => Some(workshop.read(*core, *register)),
        ("l", [16, core]) => Some(workshop.line(*core).map(u64::from)),
        ("z", [16, cores, slot]) => Some(workshop.reset(*cores, *slot).map(|()| 0)),
        ("r", [caller, core, register]) => own(caller, core).map(|c| c.read(*register)),
        ("l", [caller, core]) => own(caller, core).map(|c| c.line().map(u64::from)),
        ("w", [caller, core, register, value]) => {
            own(caller, core).map(|c| c.write(*register, *value).map(|()| 0))
        }
        ("t", [_]) | ("z", [_, _, _]) => None,
        _ => panic!("no call: {kind} {n:?}"),
    }
}

// STATUS/A/B/HEX of a call; or what is wrong.
fn made(arbiter: &Arbiter, call: &str) -> Result<String, String> {
    let mut items = call.split('/');
    let kind = items.next().expect("a call");
    let n: Vec<u64> = items.map(|n| n.parse().expect("a number")).collect();
    let before = arbiter.bytes();
    let shown = arbiter.core(n[0]).map(|core| format!("{core:?}"));
    let expected = match n[0] {
        0..=15 => format!("Ok(\"Core({})\")", n[0]),
        _ => "Err(Refusal { number: 17, word: \"forbidden\", place: 0 })".to_string(),
    };
    if format!("{shown:?}") != expected || arbiter.bytes() != before {
        return Err(format!("{kind}: the handle is {shown:?}"));
    }
    let Some(given) = through(arbiter, kind, &n) else {
        return Ok("untyped".to_string());
    };
    if kind == "z" && Arbiter::new(n[1], n[2]) != given.map(|_| arbiter.clone()) {
        return Err("z: a new arbiter is otherwise".to_string());
    }
    let head = given.map_or_else(refused, |value| Ok(format!("0/0/{value}")))?;
    let after = arbiter.bytes();
    match after == before {
        true => Ok(format!("{head}/=")),
        false if given.is_err() => Err(format!("{kind}: refused, and a byte is changed")),
        false => Ok(format!("{head}/{}", write_bytes(&after))),
    }
}

fn line(text: &str) -> String {
    let mut items = text.split(' ');
    let state = read_bytes(items.next().expect("a state"));
    let Ok(state) = state.try_into() else {
        return "untyped".to_string();
    };
    let arbiter = Arbiter::from_bytes(state);
    let made: Result<Vec<String>, String> = items.map(|call| made(&arbiter, call)).collect();
    made.map_or_else(|what| format!("wrong {what}"), |made| made.join(" "))
}

fn main() {
    let text = std::io::read_to_string(std::io::stdin()).expect("standard input");
    for sequence in text.lines() {
        println!("{}", line(sequence));
    }
}
