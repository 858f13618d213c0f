//! What is left behind if a function of the caller unwinds while a map is half changed. Rattle knows no unwinding.

/// Calls `f` with the value. If `f` unwinds, calls `mend` with it.
#[inline(always)]
pub fn if_unwound<T, R>(value: &mut T, mend: impl FnMut(&mut T), f: impl FnOnce(&mut T) -> R) -> R {
    let guard = Guard { value, mend };
    let result = f(&mut *guard.value);
    core::mem::forget(guard);
    result
}

struct Guard<'a, T, M: FnMut(&mut T)> {
    value: &'a mut T,
    mend: M,
}

impl<T, M: FnMut(&mut T)> Drop for Guard<'_, T, M> {
    #[cold]
    fn drop(&mut self) {
        (self.mend)(self.value);
    }
}

/// Overwrites a half-changed value by an empty value, and drops nothing of the half-changed value.
pub fn leak<T>(place: &mut T, empty: T) {
    core::mem::forget(core::mem::replace(place, empty));
}
