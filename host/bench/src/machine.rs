//! The two machines behind one face, each with its own store.

/// What a run did.
pub struct Counts {
    /// It ended in the reset state, else spent.
    pub reset: bool,
    pub executed: u32,
    pub taken: usize,
    pub typed: usize,
}

/// A machine with a store of its own.
pub trait Machine {
    /// A machine with so many cells of zero.
    fn new(cells: usize) -> Self;

    /// Loads a tape.
    fn load(&mut self, tape: &[u8]);

    /// One run with no lines, which must end spent or in the reset state.
    fn run(&mut self, budget: u32, characters: &[u8], typing: &mut [u8]) -> Counts;

    /// Presses the reset key and the autoload key; gives the characters taken.
    fn autoload(&mut self, characters: &[u8]) -> usize;

    /// Writes the machine's tape, with no remark; gives its length.
    fn write(&self, tape: &mut [u8]) -> usize;

    /// The word of a line.
    fn assemble(line: &[u8]) -> u32;
}

/// The machine of a library; both have the same calls.
macro_rules! machine {
    ($name:ident, $library:ident) => {
        pub struct $name {
            store: Vec<u32>,
            control: $library::Control,
            devices: $library::Devices,
        }

        impl Machine for $name {
            fn new(cells: usize) -> Self {
                $name {
                    store: vec![0; cells],
                    control: $library::Control::fresh(),
                    devices: $library::Devices::default(),
                }
            }

            fn load(&mut self, tape: &[u8]) {
                $library::load(&mut self.store, &mut self.control, tape).expect("the tape loads");
            }

            fn run(&mut self, budget: u32, characters: &[u8], typing: &mut [u8]) -> Counts {
                let (store, control) = (&mut self.store, &mut self.control);
                let devices = &mut self.devices;
                let report = $library::run(store, control, 0, budget, devices, characters, typing)
                    .expect("a run that is not refused");
                let reset = match report.outcome {
                    $library::Outcome::Spent => false,
                    $library::Outcome::Reset => true,
                    $library::Outcome::Interrupted(kind) => panic!("interrupted: {kind:?}"),
                };
                Counts {
                    reset,
                    executed: report.executed,
                    taken: report.taken,
                    typed: report.typed,
                }
            }

            fn autoload(&mut self, characters: &[u8]) -> usize {
                let (store, control) = (&mut self.store, &mut self.control);
                $library::press_reset(store, control).expect("the reset key");
                $library::press_autoload(store, control, &mut self.devices, characters)
                    .expect("the autoload key")
            }

            fn write(&self, tape: &mut [u8]) -> usize {
                $library::write(&self.store, self.control, None, tape).expect("a tape")
            }

            fn assemble(line: &[u8]) -> u32 {
                $library::assemble(line).expect("a word")
            }
        }
    };
}

#[cfg(feature = "proved")]
machine!(Proved, rc4000);
machine!(Emulation, emulation);
