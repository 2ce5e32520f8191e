//! A stand-in: runs closures in threads of their own, and joins them.
use std::thread;

#[derive(Default)]
pub struct Parallel<'a> {
    jobs: Vec<Box<dyn FnOnce() + Send + 'a>>,
}

impl<'a> Parallel<'a> {
    pub fn new() -> Self {
        Self::default()
    }

    pub fn add<F: FnOnce() + Send + 'a>(mut self, job: F) -> Self {
        self.jobs.push(Box::new(job));
        self
    }

    pub fn each<A, I, F>(mut self, items: I, job: F) -> Self
    where
        I: IntoIterator<Item = A>,
        A: Send + 'a,
        F: Fn(A) + Clone + Send + 'a,
    {
        for item in items {
            let job = job.clone();
            self.jobs.push(Box::new(move || job(item)));
        }
        self
    }

    pub fn run(self) {
        thread::scope(|scope| {
            for job in self.jobs {
                scope.spawn(job);
            }
        });
    }
}
