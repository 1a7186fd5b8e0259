//! Makes a list short by leaving out what isn't needed.

use crate::list::{Call, Lent, List, Page, Step, View};
use crate::wire;

/// Leaves out steps and parts of steps, one after the other, as long as the list fails.
pub fn shrink(mut list: List, fails: impl Fn(&List) -> bool) -> List {
    loop {
        let steps_left_out = leave_out_steps(&mut list, &fails);
        let parts_left_out = leave_out_parts(&mut list, &fails);
        if !steps_left_out && !parts_left_out {
            return list;
        }
    }
}

/// Tries long runs of steps first.
fn leave_out_steps(list: &mut List, fails: &impl Fn(&List) -> bool) -> bool {
    let before = list.steps.len();
    let mut length = before;
    while length > 0 {
        let mut start = 0;
        while start + length <= list.steps.len() {
            let mut shorter = list.clone();
            shorter.steps.drain(start..start + length);
            if fails(&shorter) {
                *list = shorter;
            } else {
                start += length;
            }
        }
        length /= 2;
    }
    list.steps.len() < before
}

fn leave_out_parts(list: &mut List, fails: &impl Fn(&List) -> bool) -> bool {
    let mut any = false;
    for index in 0..list.steps.len() {
        while let Some(shorter) = with_less(list, index).into_iter().find(fails) {
            *list = shorter;
            any = true;
        }
    }
    any
}

/// The list with one part left out of one step, in every way.
fn with_less(list: &List, index: usize) -> Vec<List> {
    let steps: Vec<Step> = match &list.steps[index] {
        Step::Serve(call) => less(call).into_iter().map(Step::Serve).collect(),
        Step::Show(view) => plainer(view, list).into_iter().map(Step::Show).collect(),
        Step::Damage(_) => Vec::new(),
    };
    let with = |step| {
        let mut list = list.clone();
        list.steps[index] = step;
        list
    };
    steps.into_iter().map(with).collect()
}

/// The view with a good page, or with the tables as they are.
fn plainer(view: &View, list: &List) -> Vec<View> {
    let good = Page::zeros(list.geometry.block_size as usize);
    let mut views = Vec::new();
    if view.page != good {
        views.push(View {
            page: good,
            ..view.clone()
        });
    }
    if !view.lent.is_usual() {
        views.push(View {
            lent: Lent::default(),
            ..view.clone()
        });
    }
    views
}

/// The call with one operation or one peculiarity less, or with plain data, in every way.
fn less(call: &Call) -> Vec<Call> {
    let mut calls = Vec::new();
    let mut add = |is_less: bool, change: &dyn Fn(&mut Call)| {
        if is_less {
            let mut call = call.clone();
            change(&mut call);
            calls.push(call);
        }
    };
    let request = &call.request;
    for index in 0..request.operations.len() {
        add(true, &|call| {
            call.request.operations.remove(index);
        });
    }
    for (index, operation) in request.operations.iter().enumerate() {
        if let Some(plain) = plain(operation) {
            add(true, &|call| call.request.operations[index] = plain.clone());
        }
    }
    for index in 0..request.edits.len() {
        add(true, &|call| {
            call.request.edits.remove(index);
        });
    }
    add(!request.tag.is_empty(), &|call| call.request.tag.clear());
    add(request.count.is_some(), &|call| call.request.count = None);
    add(!call.lent.is_usual(), &|call| call.lent = Lent::default());
    calls
}

/// WRITE with the same byte all through its data, if it isn't so already.
fn plain(operation: &[u8]) -> Option<Vec<u8>> {
    const LENGTH: usize = 32;
    const BYTE: u8 = 0xdd;
    if !operation.starts_with(&wire::WRITE.to_be_bytes()) {
        return None;
    }
    let length = u32::from_be_bytes(*operation.get(LENGTH..)?.first_chunk()?);
    let mut plain = operation.to_vec();
    let data = plain[LENGTH + 4..].get_mut(..length as usize)?;
    data.fill(BYTE);
    (plain != operation).then_some(plain)
}
