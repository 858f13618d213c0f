use std::thread;

pub struct Pool;

pub struct Scope<'scope, 'env>(&'scope thread::Scope<'scope, 'env>);

impl Pool {
    pub fn new(_: u32) -> Pool {
        Pool
    }

    pub fn scoped<'env, R>(&mut self, run: impl for<'scope> FnOnce(&Scope<'scope, 'env>) -> R) -> R {
        thread::scope(|scope| run(&Scope(scope)))
    }
}

impl<'scope> Scope<'scope, '_> {
    pub fn execute(&self, run: impl FnOnce() + Send + 'scope) {
        self.0.spawn(run);
    }
}
