//! A call on a stack of its own, which tells how much of it the call writes; the only unsafe code here.
#![allow(unsafe_code)]

use std::arch::asm;

use crate::evaluator::Evaluator;

/// What an archive's function on an expression answers.
#[repr(C)]
#[derive(Clone, Copy, Debug, Default, PartialEq, Eq)]
pub struct Answer {
    /// 0, or the refusal's number.
    pub number: usize,
    /// Where the expression stops, or the refusal's place.
    pub place: usize,
    /// The value in millionths, in two's complement.
    pub bits: u64,
}

type Function = unsafe extern "C" fn(*const u8, usize) -> Answer;

extern "C" {
    fn lumbrisse_expression(text: *const u8, length: usize) -> Answer;
    fn lumbrisse_expression_exact(text: *const u8, length: usize) -> Answer;
    fn lumbrisse_expression_stacked(text: *const u8, length: usize) -> Answer;
    fn lumbrisse_expression_stacked_exact(text: *const u8, length: usize) -> Answer;
}

fn function(evaluator: Evaluator) -> Function {
    match evaluator {
        Evaluator::Rounding => lumbrisse_expression,
        Evaluator::Exact => lumbrisse_expression_exact,
        Evaluator::Stacked => lumbrisse_expression_stacked,
        Evaluator::StackedExact => lumbrisse_expression_stacked_exact,
    }
}

/// A piece of stack: a call finds its stack aligned so.
#[repr(C, align(16))]
#[derive(Clone, Copy, PartialEq)]
struct Piece([u8; 16]);

/// The stack's pieces: 128 KiB, where the archive's functions take less than 40 at their 32 groups.
const PIECES: usize = 1 << 13;

/// What a stack is filled with: a byte that a call writes is another than one of these.
const PATTERNS: [u8; 2] = [0x55, 0xAA];

/// A call's answer, and the bytes of stack from its return address to the lowest that it writes.
pub fn called(evaluator: Evaluator, text: &[u8]) -> (Answer, usize) {
    let (mut answer, mut most) = (Answer::default(), 0);
    let mut stack = vec![Piece([0; 16]); PIECES];
    for pattern in PATTERNS {
        stack.fill(Piece([pattern; 16]));
        answer = on_stack(function(evaluator), text, &mut stack);
        most = most.max(written(&stack, pattern));
    }
    (answer, most)
}

/// The bytes from the lowest that is not as it was.
fn written(stack: &[Piece], pattern: u8) -> usize {
    let whole = |piece: &&Piece| **piece == Piece([pattern; 16]);
    let kept = stack.iter().take_while(whole).count();
    let changed = stack.get(kept..).unwrap_or_default();
    let same = |byte: &u8| *byte == pattern;
    let bytes = changed.iter().flat_map(|piece| piece.0);
    size_of_val(changed) - bytes.take_while(same).count()
}

fn on_stack(function: Function, text: &[u8], stack: &mut [Piece]) -> Answer {
    let mut answer = Answer::default();
    // SAFETY: the function is one of the four above, and is called as the System V ABI says: the answer's address in
    // rdi, the slice in rsi and rdx, an aligned stack that is borrowed mutably and long enough. The registers that a
    // function may change are named; it keeps r12, by which rsp is as before at the end.
    unsafe {
        asm!(
            "mov r12, rsp",
            "mov rsp, {top}",
            "call {function}",
            "mov rsp, r12",
            top = in(reg) stack.as_mut_ptr_range().end,
            function = in(reg) function,
            in("rdi") std::ptr::from_mut(&mut answer),
            in("rsi") text.as_ptr(),
            in("rdx") text.len(),
            out("r12") _,
            clobber_abi("C"),
        );
    }
    answer
}
