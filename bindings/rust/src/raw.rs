//! The library's functions, and items as words.
//!
//! Nothing but the tests compares the declarations with `queue_c.h`. They are of one version, which the library has to be of.
use crate::errors::{ForcePushError, PopError, PushError};
use std::alloc::{Layout, handle_alloc_error};
use std::ffi::c_void;
use std::marker::PhantomData;
use std::mem::{MaybeUninit, needs_drop};
use std::ptr::NonNull;
use std::thread::yield_now;

const DONE: u32 = 0;
const YES: u32 = 1;
const FULL: u32 = 2;
const EMPTY: u32 = 3;
const CLOSED: u32 = 4;
const PENDING: u32 = 12;

/// A word of the queue: an item of at most its size, or a box of a larger one. The library never looks at it.
type Word = MaybeUninit<u64>;

/// A party as C sees it: a pointer that is null where there is none.
#[derive(Clone, Copy, PartialEq)]
#[repr(transparent)]
struct Handle(NonNull<c_void>);

unsafe extern "C" {
    fn queue_c_bounded(out: &mut Option<Handle>, cap: usize) -> u32;
    fn queue_c_unbounded(out: &mut Option<Handle>) -> u32;
    fn queue_c_split(party: &mut Handle, out: &mut Option<Handle>) -> u32;
    fn queue_c_drop(party: &mut Option<Handle>) -> u32;
    fn queue_c_push(party: &mut Handle, value: Word) -> u32;
    fn queue_c_force_push(party: &mut Handle, value: Word, old: &mut Word) -> u32;
    fn queue_c_pop(party: &mut Handle, value: &mut Word) -> u32;
    fn queue_c_len(party: &mut Handle, len: &mut u64) -> u32;
    fn queue_c_resume(party: &mut Handle, value: &mut Word) -> u32;
    fn queue_c_close(party: &mut Handle) -> u32;
    fn queue_c_is_closed(party: &mut Handle) -> u32;
    fn queue_c_is_empty(party: &mut Handle) -> u32;
    fn queue_c_is_full(party: &mut Handle) -> u32;

    static queue_c_version_2_0_0: u8;
}

/// The name that the library of this version alone has.
#[used]
static VERSION_WANTED: &u8 = unsafe { &queue_c_version_2_0_0 };

const fn fits_a_word<T>() -> bool {
    size_of::<T>() <= size_of::<Word>() && align_of::<T>() <= align_of::<Word>()
}

/// Whether an item that is left in a queue has to be taken out before the queue goes.
pub const fn is_dropped<T>() -> bool {
    needs_drop::<T>() || !fits_a_word::<T>()
}

fn pack<T>(item: T) -> Word {
    let mut word = Word::uninit();
    if fits_a_word::<T>() {
        // SAFETY: the word is as large and as aligned as the item.
        unsafe { word.as_mut_ptr().cast::<T>().write(item) };
    } else {
        // SAFETY: a box of a sized item is one pointer.
        unsafe { word.as_mut_ptr().cast::<Box<T>>().write(Box::new(item)) };
    }
    word
}

/// # Safety
///
/// The word was made by `pack` for this type, and this is the only item that is made of it.
unsafe fn unpack<T>(word: Word) -> T {
    if fits_a_word::<T>() {
        // SAFETY: `pack` wrote the item, by the same test.
        unsafe { word.as_ptr().cast::<T>().read() }
    } else {
        // SAFETY: `pack` wrote the box.
        unsafe { *word.as_ptr().cast::<Box<T>>().read() }
    }
}

/// There is no memory for a word more.
#[cold]
fn no_memory() -> ! {
    handle_alloc_error(Layout::new::<Word>())
}

/// There is no memory for a queue of this capacity, whose slots have an item and a word each.
#[cold]
fn no_memory_for<T>(cap: usize) -> ! {
    match Layout::array::<(usize, MaybeUninit<T>)>(cap) {
        Ok(slots) => handle_alloc_error(slots),
        Err(_) => panic!("capacity overflow"),
    }
}

/// A party of a queue of such items. All parties of its queue have that type, since each is made by `new` or `split`. It has no pending call between its methods,
/// which give way to other threads and take their call up again until they have its reply.
pub struct Party<T> {
    handle: Handle,
    items: PhantomData<T>,
}

// SAFETY: the library proves of its party that it may go to another thread; the items that it moves there may do so too.
unsafe impl<T: Send> Send for Party<T> {}

impl<T> Party<T> {
    /// The first party of a new queue of this capacity, or of one without a limit.
    pub fn new(cap: Option<usize>) -> Self {
        let mut handle = None;
        // SAFETY: the handle is new, and only this call has it.
        match cap {
            Some(cap) => unsafe { queue_c_bounded(&mut handle, cap) },
            None => unsafe { queue_c_unbounded(&mut handle) },
        };
        let Some(handle) = handle else { no_memory_for::<T>(cap.unwrap_or(1)) };
        Party { handle, items: PhantomData }
    }

    /// Another party of the same queue.
    pub fn split(&mut self) -> Self {
        let mut other = None;
        // SAFETY: two handles, and only this call has them.
        unsafe { queue_c_split(&mut self.handle, &mut other) };
        let Some(handle) = other else { no_memory() };
        Party { handle, items: PhantomData }
    }

    /// Whether the two are one party under one handle.
    #[inline]
    pub fn has_the_handle_of(&self, other: &Self) -> bool {
        self.handle == other.handle
    }

    #[cold]
    fn wait(&mut self, value: &mut Word) -> u32 {
        loop {
            yield_now();
            // SAFETY: only this call has the handle, and the word is no part of it.
            let answer = unsafe { queue_c_resume(&mut self.handle, value) };
            if answer != PENDING {
                return answer;
            }
        }
    }

    #[inline]
    pub fn push(&mut self, item: T) -> Result<(), PushError<T>> {
        let word = pack(item);
        // SAFETY: only this call has the handle.
        let mut answer = unsafe { queue_c_push(&mut self.handle, word) };
        if answer == PENDING {
            answer = self.wait(&mut Word::uninit());
        }
        if answer == DONE {
            return Ok(());
        }
        // SAFETY: the word was not pushed, so its item is made here alone.
        let item = unsafe { unpack(word) };
        match answer {
            FULL => Err(PushError::Full(item)),
            CLOSED => Err(PushError::Closed(item)),
            _ => no_memory(),
        }
    }

    pub fn force_push(&mut self, item: T) -> Result<Option<T>, ForcePushError<T>> {
        let word = pack(item);
        let mut old = Word::uninit();
        // SAFETY: only this call has the handle, and `old` is no part of it.
        let mut answer = unsafe { queue_c_force_push(&mut self.handle, word, &mut old) };
        if answer == PENDING {
            answer = self.wait(&mut old);
        }
        match answer {
            DONE => Ok(None),
            // SAFETY: the word was in the queue, and is not any more.
            YES => Ok(Some(unsafe { unpack(old) })),
            // SAFETY: the word was not pushed.
            CLOSED => Err(ForcePushError(unsafe { unpack(word) })),
            _ => no_memory(),
        }
    }

    #[inline]
    pub fn pop(&mut self) -> Result<T, PopError> {
        let mut word = Word::uninit();
        // SAFETY: only this call has the handle, and the word is no part of it.
        let mut answer = unsafe { queue_c_pop(&mut self.handle, &mut word) };
        if answer == PENDING {
            answer = self.wait(&mut word);
        }
        match answer {
            // SAFETY: the word was in the queue, and is not any more.
            DONE => Ok(unsafe { unpack(word) }),
            EMPTY => Err(PopError::Empty),
            _ => Err(PopError::Closed),
        }
    }

    pub fn len(&mut self) -> usize {
        let mut len = 0;
        // SAFETY: only this call has the handle, and `len` is no part of it.
        if unsafe { queue_c_len(&mut self.handle, &mut len) } == PENDING {
            let mut word = Word::uninit();
            self.wait(&mut word);
            // SAFETY: the reply of this call has a length, which the library wrote there.
            len = unsafe { word.assume_init() };
        }
        len as usize
    }

    pub fn close(&mut self) -> bool {
        // SAFETY, here and in the next three: only this call has the handle.
        unsafe { queue_c_close(&mut self.handle) == YES }
    }

    pub fn is_closed(&mut self) -> bool {
        unsafe { queue_c_is_closed(&mut self.handle) == YES }
    }

    pub fn is_empty(&mut self) -> bool {
        unsafe { queue_c_is_empty(&mut self.handle) == YES }
    }

    pub fn is_full(&mut self) -> bool {
        unsafe { queue_c_is_full(&mut self.handle) == YES }
    }
}

impl<T> Drop for Party<T> {
    fn drop(&mut self) {
        // SAFETY: only this call has the handle, and nobody has it afterwards.
        unsafe { queue_c_drop(&mut Some(self.handle)) };
    }
}
