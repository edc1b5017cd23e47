//! Variables looked at one by one.

use futonkestrel::Variables;

use crate::variables;

/// The variables at some moment, by what they stand for.
#[derive(Clone)]
pub struct Look {
    variables: Variables,
}

impl Look {
    pub fn new(variables: Variables) -> Look {
        Look { variables }
    }

    fn single(&self, name: &str) -> i64 {
        self.value(variables::number(name, None))
    }

    fn of(&self, name: &str, item: usize) -> i64 {
        self.value(variables::number(name, Some(item as i64)))
    }

    fn value(&self, variable: Option<i64>) -> i64 {
        let variable = variable.expect("a variable of this name");
        i64::from(self.variables[variable as usize])
    }

    pub fn clock(&self) -> i64 {
        self.single("Now")
    }

    pub fn mode(&self) -> usize {
        self.single("Mode") as usize
    }

    pub fn phase(&self) -> i64 {
        self.single("Phase")
    }

    pub fn pending(&self) -> usize {
        self.single("Pending") as usize
    }

    pub fn processor(&self) -> usize {
        self.single("Cpu") as usize
    }

    pub fn is_active(&self, thread: usize) -> bool {
        self.of("Active", thread) == 1
    }

    pub fn code(&self, thread: usize) -> usize {
        self.of("State", thread) as usize
    }

    pub fn dispatched(&self, thread: usize) -> i64 {
        self.of("DispatchTime", thread)
    }

    pub fn due(&self, thread: usize) -> i64 {
        self.of("Due", thread)
    }

    pub fn is_live(&self, connection: usize) -> bool {
        self.of("Flag", connection) == 1
    }

    pub fn buffer(&self, input: i64) -> i64 {
        self.of("Buffer", input as usize)
    }
}
