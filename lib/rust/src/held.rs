//! Owners of C handles, and calls on them.

use crate::handle_calls as calls;
use crate::{given, held, Result, Status};
use std::alloc::{handle_alloc_error, Layout};
use std::cell::RefCell;
use std::ffi::c_void;
use std::ptr::null_mut;

/// The statuses of aig.h for refused memory, and for a node without a name.
const MEMORY: Status = Status(2);
pub(crate) const NO_NAME: Status = Status(118);

/// A handle, with the layout that it has in C.
#[repr(C)]
pub(crate) struct Handle(*mut c_void);

/// A node, with the layout that it has in C.
#[repr(C)]
#[derive(Clone, Copy, Default)]
pub(crate) struct Node {
    pub kind: u32,
    pub fanin0: u32,
    pub fanin1: u32,
}

/// A latch, with the layout that it has in C.
#[repr(C)]
#[derive(Clone, Copy, Default)]
pub(crate) struct Latch {
    pub input: usize,
    pub next: u32,
    pub init: u32,
    pub has_init: bool,
}

/// An owned handle, which is freed when it is dropped. Calls that only read also change the handle for a moment, so only one call is made
/// at a time.
pub(crate) struct Held {
    handle: RefCell<Handle>,
    free: unsafe extern "C" fn(*mut Handle),
}

// SAFETY: what a handle holds is its own, and may go from thread to thread.
unsafe impl Send for Held {}

impl Drop for Held {
    fn drop(&mut self) {
        // SAFETY: the handle is one of the kind that the function frees.
        unsafe { (self.free)(self.handle.get_mut()) }
    }
}

impl Held {
    /// An empty handle of circuits.
    pub fn circuit() -> Self {
        Held { handle: RefCell::new(Handle(null_mut())), free: calls::aig_circuit_free }
    }

    /// An empty handle of simulations.
    pub fn simulation() -> Self {
        Held { handle: RefCell::new(Handle(null_mut())), free: calls::aig_simulation_free }
    }

    /// An empty handle of circuits that are unrolled step by step.
    pub fn unrolling() -> Self {
        Held { handle: RefCell::new(Handle(null_mut())), free: calls::aig_unrolling_free }
    }

    /// Makes a call, and returns its status.
    pub fn call(&self, call: impl FnOnce(*mut Handle) -> u32) -> Result<()> {
        held(call(&mut *self.handle.borrow_mut()))
    }

    /// Makes a call with another handle.
    pub fn call_with(&self, other: &Held, call: impl FnOnce(*mut Handle, *mut Handle) -> u32) -> Result<()> {
        held(call(&mut *self.handle.borrow_mut(), &mut *other.handle.borrow_mut()))
    }

    /// Makes a call, and returns its result.
    pub fn tell<T: Default>(&self, call: impl FnOnce(*mut Handle, *mut T) -> u32) -> Result<T> {
        let mut told = T::default();
        self.call(|handle| call(handle, &mut told))?;
        Ok(told)
    }

    /// Makes a call that returns a list, with space for the given number of items initially.
    pub fn list<T: Copy + Default>(&self, room: usize, call: impl Fn(*mut Handle, *mut T, usize, *mut usize) -> u32) -> Result<Vec<T>> {
        let mut handle = self.handle.borrow_mut();
        let at: *mut Handle = &mut *handle;
        given(room.max(1), |out, len, needed| call(at, out, len, needed))
    }
}

/// Returns the result of a call. If memory runs out, the program ends, as with std's collections. If the call is refused, the function
/// panics.
#[track_caller]
pub(crate) fn taken<T>(result: Result<T>) -> T {
    match result {
        Ok(value) => value,
        Err(MEMORY) => handle_alloc_error(Layout::new::<u8>()),
        Err(status) => panic!("{status}"),
    }
}
