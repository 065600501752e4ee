//! As much of easy-parallel as the tests use: closures that run side by side.
type Task<'a, T> = Box<dyn FnOnce() -> T + Send + 'a>;

pub struct Parallel<'a, T>(Vec<Task<'a, T>>);

impl<'a, T: Send + 'a> Parallel<'a, T> {
    pub fn new() -> Self {
        Parallel(Vec::new())
    }

    #[allow(clippy::should_implement_trait)]
    pub fn add<F: FnOnce() -> T + Send + 'a>(mut self, f: F) -> Self {
        self.0.push(Box::new(f));
        self
    }

    pub fn each<A: Send + 'a, I, F>(mut self, items: I, f: F) -> Self
    where
        I: IntoIterator<Item = A>,
        F: Fn(A) -> T + Clone + Send + 'a,
    {
        for item in items {
            let f = f.clone();
            self.0.push(Box::new(move || f(item)));
        }
        self
    }

    pub fn run(self) -> Vec<T> {
        std::thread::scope(|scope| {
            let threads: Vec<_> = self.0.into_iter().map(|f| scope.spawn(f)).collect();
            threads.into_iter().map(|thread| thread.join().unwrap()).collect()
        })
    }
}
