//! How deep the library's calls go. Each is made on a stack of its own, painted with one byte
//! (makecontext and swapcontext); what is no longer that byte was used.

use crate::families::Subject;
use second::text::LONGEST_LIST;
use std::ffi::c_void;
use stezkoun::{numbers, LIMIT};

const STACK: usize = 8 << 20;

extern "C" {
    fn painted_depth(
        stack: *mut u8, stack_len: usize, call: extern "C" fn(*mut c_void), argument: *mut c_void,
    ) -> usize;
}

/// Runs the closure that `argument` points to.
extern "C" fn enter(argument: *mut c_void) {
    let call = unsafe { &mut *argument.cast::<&mut dyn FnMut()>() };
    call();
}

fn depth(stack: &mut [u8], call: &mut dyn FnMut()) -> usize {
    let mut call = call;
    let argument: *mut &mut dyn FnMut() = &mut call;
    let depth = unsafe { painted_depth(stack.as_mut_ptr(), stack.len(), enter, argument.cast()) };
    assert!(depth < stack.len(), "the painted stack was too small or could not be used");
    depth
}

pub fn print(subjects: &[Subject]) {
    let mut stack = vec![0; STACK];
    let nothing = depth(&mut stack, &mut || {});
    let mut list = vec![0; LONGEST_LIST];
    let mut deepest = [0; 4];
    for subject in subjects {
        let table = &subject.table;
        let mut result = subject.result.clone();
        let run = depth(&mut stack, &mut || {
            numbers::run(table, &mut result, LIMIT);
        });
        let edit = subject.edits().into_iter().map(|edit| {
            let (mut table, mut kept) = (table.clone(), subject.result.clone());
            depth(&mut stack, &mut || {
                numbers::edit(&mut table, &mut kept, edit.row, &edit.replacements[0], LIMIT);
            })
        });
        let edit = edit.max().unwrap_or(0);
        let ask = subject.questions().into_iter().map(|question| {
            let [first, second] = question.rows;
            depth(&mut stack, &mut || {
                numbers::ask(table, &subject.result, first, second);
            })
        });
        let ask = ask.max().unwrap_or(0);
        let why = depth(&mut stack, &mut || {
            numbers::why(table, &mut result, subject.listed(), &mut list);
        });
        for (deepest, depth) in deepest.iter_mut().zip([run, edit, ask, why]) {
            *deepest = depth.max(*deepest);
        }
    }
    println!("deepest stack of the library, in bytes, on a painted stack of its own");
    println!("  ({nothing} bytes of each figure are what an empty call takes)");
    for (name, depth) in ["run", "edit", "ask", "why"].iter().zip(deepest) {
        println!("  {name:<8} {depth:>8}");
    }
}
