//! The floating-point mode. The library is proved for the default one: round to nearest, subnormals
//! kept, no exception trapped. Rust takes it for granted, but a thread may come in another: a C program
//! that is linked with `-ffast-math` flushes subnormals, in its Rust parts too, and a false sheet would
//! be accepted. So each call sets the default mode and puts the caller's back.

#[cfg(not(any(target_arch = "x86_64", target_arch = "aarch64")))]
compile_error!("how this machine keeps its floating-point mode is not known here");

use word::Word;

/// What `call` answers in the default mode. The caller's is then as it was, where `call` unwinds too.
///
/// It is for foreign functions: arithmetic of Rust's own may be moved out of `call` by the compiler.
///
/// Nothing is promised of the flags that tell which exceptions were raised. Where the caller's mode is
/// the default one, nothing is written, and those that `call` raises stay; else the caller's whole word
/// is put back, of which they are a part on x86-64.
pub fn in_default<T>(call: impl FnOnce() -> T) -> T {
    let callers = word::read();
    if word::is_default(callers) {
        return call();
    }
    let _back = PutBack(callers);
    word::write(word::DEFAULT);
    call()
}

/// Writes a word when it is dropped.
struct PutBack(Word);

impl Drop for PutBack {
    fn drop(&mut self) {
        word::write(self.0);
    }
}

/// The register MXCSR.
#[cfg(target_arch = "x86_64")]
pub mod word {
    use std::arch::asm;

    pub type Word = u32;

    pub const DEFAULT: Word = 0x1f80;

    /// Bits 0 to 5 are flags of exceptions that were raised, and no part of the mode.
    pub fn is_default(word: Word) -> bool {
        word & 0xffc0 == DEFAULT
    }

    pub fn read() -> Word {
        let mut word = 0;
        // SAFETY: it stores the register's 32 bits in a variable of that size.
        unsafe { asm!("stmxcsr [{}]", in(reg) &mut word, options(nostack, preserves_flags)) };
        word
    }

    /// Takes a word that was read, perhaps with other bits of the mode, or `DEFAULT`. Foreign calls stay on
    /// their side of it, since for all that the compiler knows it reads and writes any memory.
    pub fn write(word: Word) {
        // SAFETY: it loads 32 bits from a variable of that size, of which none is set that is reserved.
        unsafe { asm!("ldmxcsr [{}]", in(reg) &word, options(nostack)) };
    }
}

/// The register FPCR, which has no flags.
#[cfg(target_arch = "aarch64")]
pub mod word {
    use std::arch::asm;

    pub type Word = u64;

    pub const DEFAULT: Word = 0;

    pub fn is_default(word: Word) -> bool {
        word == DEFAULT
    }

    pub fn read() -> Word {
        let word;
        // SAFETY: it reads a register that every program may read.
        unsafe { asm!("mrs {}, fpcr", out(reg) word, options(nostack, preserves_flags)) };
        word
    }

    /// As on x86-64.
    pub fn write(word: Word) {
        // SAFETY: it writes a register that every program may write.
        unsafe { asm!("msr fpcr, {}", in(reg) word, options(nostack)) };
    }
}

#[cfg(test)]
mod tests {
    use super::*;

    /// Subnormals are flushed.
    const ANOTHER: Word = if cfg!(target_arch = "x86_64") { 0x9fc0 } else { 1 << 24 };

    #[test]
    fn the_callers_mode_is_put_back_where_a_call_unwinds() {
        word::write(ANOTHER);
        let unwound = std::panic::catch_unwind(|| in_default(|| panic!("in mode {:#x}", word::read())));
        let left = word::read();
        word::write(word::DEFAULT);
        assert_eq!(left, ANOTHER);
        let said = unwound.map_err(|said| said.downcast::<String>().expect("a panic with its words"));
        assert_eq!(said, Err(Box::new(format!("in mode {:#x}", word::DEFAULT))));
    }
}
