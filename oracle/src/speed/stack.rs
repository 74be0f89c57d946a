//! How deep a call goes into the stack.

use std::arch::asm;

const WORDS: usize = 1 << 17;
const PATTERN: u64 = 0xA5C3_96E1_5A3C_691E;

/// A stack of our own, filled with a pattern, so that what a call writes there shows.
#[derive(Clone)]
pub struct Stack {
    words: Vec<u64>,
}

struct Work<F, T> {
    call: Option<F>,
    value: Option<T>,
}

extern "C" fn work<F: FnOnce() -> T, T>(w: &mut Work<F, T>) {
    w.value = w.call.take().map(|call| call());
}

impl Stack {
    pub fn new() -> Self {
        Self {
            words: vec![PATTERN; WORDS],
        }
    }

    /// What `call` gives, and the bytes from the top of the stack to the lowest one that it wrote.
    pub fn run<F: FnOnce() -> T, T>(&mut self, call: F) -> (T, usize) {
        self.words.fill(PATTERN);
        let mut w = Work {
            call: Some(call),
            value: None,
        };
        let top = self.words.as_mut_ptr_range().end as usize & !15;
        // SAFETY: the call runs on memory of our own, 1 MB of it, and the stack pointer is put back from a register that
        // calls keep. `work` doesn't unwind, since it is extern "C".
        unsafe {
            asm!(
                "mov r12, rsp",
                "mov rsp, {top}",
                "call {work}",
                "mov rsp, r12",
                top = in(reg) top,
                work = in(reg) work::<F, T> as *const (),
                in("rdi") &mut w,
                out("r12") _,
                clobber_abi("C"),
            );
        }
        let untouched = self.words.iter().take_while(|&&w| w == PATTERN).count();
        (w.value.expect("the call was made"), 8 * (WORDS - untouched))
    }
}
