//! Functions of the library, on stores that are lent again and again and never cleared in between.

#[path = "../../../bindings/rust/src/c.rs"]
#[allow(dead_code)]
mod c;

/// The four stores of a load, and its answer.
pub struct Stores {
    pub instructions: Vec<u32>,
    pub log: Vec<u8>,
    pub strings: Vec<u8>,
    pub types: Vec<u32>,
    pub answer: [u32; 16],
}

#[derive(Clone, Copy)]
pub enum Order {
    Parse,
    Module,
    Text,
}

impl Stores {
    /// Stores of the sizes that always suffice for a module of this length, all zero.
    pub fn new(module_length: usize) -> Stores {
        let w = (module_length / 4).saturating_sub(5);
        Stores {
            instructions: vec![0; c::RECORD * w],
            log: vec![0; 9 * w],
            strings: vec![0; 4 * w],
            types: vec![0; 3 * w],
            answer: [0; 16],
        }
    }

    // Safety, here and below: each pointer comes from a live slice with its own length, and no two of the written ones overlap.
    pub fn load(&mut self, module: &[u8], grammar: &[u8]) -> u32 {
        unsafe {
            c::kollafrin_load(
                module.as_ptr(),
                module.len(),
                grammar.as_ptr(),
                grammar.len(),
                self.instructions.as_mut_ptr(),
                self.instructions.len(),
                self.log.as_mut_ptr(),
                self.log.len(),
                self.strings.as_mut_ptr(),
                self.strings.len(),
                self.types.as_mut_ptr(),
                self.types.len(),
                &mut self.answer,
            )
        }
    }

    pub fn load_builtin(&mut self, module: &[u8]) -> u32 {
        unsafe {
            c::kollafrin_load_builtin(
                module.as_ptr(),
                module.len(),
                self.instructions.as_mut_ptr(),
                self.instructions.len(),
                self.log.as_mut_ptr(),
                self.log.len(),
                self.strings.as_mut_ptr(),
                self.strings.len(),
                self.types.as_mut_ptr(),
                self.types.len(),
                &mut self.answer,
            )
        }
    }

    /// Writes what was loaded, as a module or as text: the number, and how many bytes.
    pub fn write(&self, order: Order, out: &mut [u8]) -> (u32, usize) {
        let call = match order {
            Order::Parse => c::kollafrin_write_parse_order,
            Order::Module => c::kollafrin_write_module_order,
            Order::Text => c::kollafrin_disassemble,
        };
        let header = [8, 9, 10, 11, 12].map(|n| self.answer[n]);
        let [records, log, strings] = [4, 5, 6].map(|n| self.answer[n] as usize);
        let mut answer = [0; 4];
        let number = unsafe {
            call(
                &header,
                self.instructions.as_ptr(),
                self.instructions.len(),
                self.log.as_ptr(),
                self.log.len(),
                self.strings.as_ptr(),
                self.strings.len(),
                records,
                log,
                strings,
                out.as_mut_ptr(),
                out.len(),
                &mut answer,
            )
        };
        (number, answer[2] as usize)
    }
}

/// Whether the library has the version that it is declared with here.
pub fn same_version() -> bool {
    unsafe { c::kollafrin_version() == c::VERSION }
}

/// The built-in grammar's bytes.
pub fn builtin() -> Vec<u8> {
    let mut out = vec![0; 65_536];
    let length = unsafe { c::kollafrin_builtin(out.as_mut_ptr(), out.len()) };
    out.truncate(length);
    out
}
