//! The second plan in print, as the library prints the first (document 01, "Sums to check against").

use crate::{place, plan, Place, Plan};

/// Where Z's parameter area starts, from the stack pointer.
const Z_AREA: u64 = 160;

/// The listing of a signature's second plan, or the line that says why it is refused.
pub fn listing(signature: &[u8]) -> String {
    let plan = plan(signature);
    let no = plan.answer;
    if no.number != 0 {
        return format!("refused {} at {} after {}\n", no.number, no.place, no.items);
    }
    let (name, z) = match plan.convention {
        1 => ("PPC64", false),
        2 => ("Z", true),
        3 => ("AIX", false),
        _ => ("PPC64B", false),
    };
    let var = if plan.ellipsis == 1 { " var" } else { "" };
    let mut text = format!("{name} args {} area {}{var}\n", plan.arguments, plan.area);
    for index in 0..plan.arguments {
        text.push_str(&line(index, &place(signature, index), z));
    }
    text.push_str(&result(&plan));
    text
}

fn line(index: u64, at: &Place, z: bool) -> String {
    let mut text = index.to_string();
    text.push_str(&names('f', at.fpr, at.fprs));
    text.push_str(&names('r', at.gpr, at.gprs));
    if at.memory_length > 0 {
        text.push_str(" mem");
    }
    // on Z an argument has an offset only where it lies on the stack
    if !z {
        text.push_str(&format!(" @{}", at.field));
    } else if at.memory_length > 0 {
        text.push_str(&format!(" @{}", Z_AREA + at.memory));
    }
    if at.reference == 1 {
        text.push_str(" ref");
    }
    text.push('\n');
    text
}

fn result(plan: &Plan) -> String {
    let (bank, word) = match plan.result {
        0 => return "result none\n".to_string(),
        1 => ('r', ""),
        2 => ('f', ""),
        _ => ('r', " hidden"),
    };
    let registers = names(bank, plan.result_first, plan.result_count);
    format!("result{word}{registers}\n")
}

fn names(bank: char, first: u64, count: u64) -> String {
    let numbers = first..first + count;
    numbers.map(|number| format!(" {bank}{number}")).collect()
}
