//! Programs that the compiler has to refuse, as over the crate `concurrent-queue`. Only the tests of the documentation read this.

/// A queue of items that may not go to another thread is shared with none, and goes to none.
///
/// ```compile_fail,E0277
/// fn shared<T: Sync>() {}
/// shared::<concurrent_queue::ConcurrentQueue<std::rc::Rc<u8>>>();
/// ```
///
/// ```compile_fail,E0277
/// fn sent<T: Send>() {}
/// sent::<concurrent_queue::ConcurrentQueue<std::rc::Rc<u8>>>();
/// ```
///
/// A queue takes items of its own type, whose life is not shorter.
///
/// ```compile_fail
/// use concurrent_queue::ConcurrentQueue;
/// fn shorter<'a, 'b>(queue: &'b ConcurrentQueue<&'static str>, _: &'a str) -> &'b ConcurrentQueue<&'a str> {
///     queue
/// }
/// ```
///
/// ```compile_fail,E0597
/// let queue = concurrent_queue::ConcurrentQueue::unbounded();
/// {
///     let text = String::from("text");
///     queue.push(&text).unwrap();
/// }
/// queue.pop().unwrap();
/// ```
///
/// Items may die with their queue.
///
/// ```
/// let text = String::from("text");
/// let queue = concurrent_queue::ConcurrentQueue::unbounded();
/// queue.push(&text).unwrap();
/// ```
struct Refused;
