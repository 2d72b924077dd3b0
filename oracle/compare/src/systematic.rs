//! A case of the parts that are enumerated, not drawn (`states`, `lent`, `numbers`, `orders`, `limits`).

use crate::lists::List;
use crate::pair::{Pair, Step};
use crate::{Fault, Totals};

/// Takes steps on a fresh hub.
pub fn case(origin: &str, list: &List, steps: &[Step], totals: &mut Totals) -> Result<(), Fault> {
    let fault = |what, count: usize| Fault {
        origin: origin.to_string(),
        list: list.clone(),
        steps: steps[..count].to_vec(),
        what,
    };
    let pair = Pair::open(list, &mut totals.counts).map_err(|what| fault(what, 0))?;
    let mut pair = pair.ok_or_else(|| fault("the list is refused".to_string(), 0))?;
    totals.hubs += 1;
    for (i, step) in steps.iter().enumerate() {
        let answer = pair.step(step, &mut totals.counts);
        let answer = answer.map_err(|what| fault(what, i + 1))?;
        totals.count(&step.call, &answer);
    }
    Ok(())
}
