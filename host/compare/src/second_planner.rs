//! The second planner beside the second program: the plan and the places of its arguments, word for
//! word. The library's planner is held to the same tables, so that all three are compared.

use reference::table::Table;
use reference::Refusal;
use second::{Answer, Place, Plan};

/// Of calls with more arguments than this as many are looked at, spread over the call, and the
/// signature's length says which: for each the call is planned again.
const LOOKS: usize = 6;

/// Holds the second planner to a signature's table, or to its refusal.
pub fn compare(bytes: &[u8], table: &Result<Table, Refusal>) -> Result<(), String> {
    let given = second::plan(bytes);
    let table = match table {
        Ok(table) => table,
        Err(refusal) => {
            let expected = answer(refusal);
            if given.answer != expected {
                return Err(format!(
                    "the second planner answers {given:?}\nthe second program {expected:?}"
                ));
            }
            return Ok(());
        }
    };
    if given.answer.number != 0 || head(&given) != table.head {
        return Err(format!(
            "the second planner plans {given:?}\nthe second program {:?}",
            table.head
        ));
    }
    let count = table.entries.len();
    let looks = count.min(LOOKS);
    for look in 0..looks {
        let index = (look * count / looks + bytes.len()) % count;
        let (place, entry) = (second::place(bytes, index as u64), table.entries[index]);
        // what comes before is the argument's item, size and value, of which a place knows nothing
        let by_reference = u64::from(entry[12] > 0);
        if words(&place) != entry[3..] || place.reference != by_reference {
            return Err(format!(
                "the second planner puts argument {index} at {place:?}\nthe second program {entry:?}"
            ));
        }
    }
    Ok(())
}

fn answer(refusal: &Refusal) -> Answer {
    Answer {
        number: refusal.number,
        place: refusal.place as u64,
        items: refusal.items as u64,
    }
}

/// As the second program's table has it.
fn head(plan: &Plan) -> [u64; 11] {
    let (first, count) = (plan.result_first, plan.result_count);
    let [result, gpr, gprs, fpr, fprs] = match plan.result {
        0 => [0; 5],
        1 => [1, first, count, 0, 0],
        2 => [1, 0, 0, first, count],
        _ => [2, first, count, 0, 0],
    };
    let (values, area, copies) = (plan.values, plan.area, plan.copies);
    let (convention, ellipsis, arguments) = (plan.convention, plan.ellipsis, plan.arguments);
    [
        convention, ellipsis, arguments, values, area, copies, result, gpr, gprs, fpr, fprs,
    ]
}

fn words(place: &Place) -> [u64; 10] {
    [
        place.gpr,
        place.gprs,
        place.fpr,
        place.fprs,
        place.field,
        place.field_length,
        place.memory,
        place.memory_length,
        place.copy,
        place.copy_length,
    ]
}
