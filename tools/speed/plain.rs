//! A plain interpreter of RV32IM in Rust, to compare the simulator's speed with. It has the same checks, runs a loop of
//! five instructions (addi, add, lw, sw, bne) from memory of 1 MiB for the number of steps that its argument gives, and
//! prints pc and the two registers that count.

struct Machine {
    pc: u32,
    regs: [u32; 32],
    base: u32,
    ram: Vec<u8>,
    code: Vec<Option<u32>>,
}

enum Stepped {
    Next,
    Exit,
    Trap(u8),
}

/// The low bits of a number, sign-extended.
fn signed(value: u32, bits: u32) -> u32 {
    (((value << (32 - bits)) as i32) >> (32 - bits)) as u32
}

fn immediate_j(w: u32) -> u32 {
    signed((w >> 31) << 20 | (w >> 12 & 255) << 12 | (w >> 20 & 1) << 11 | (w >> 21 & 1023) << 1, 21)
}

fn immediate_b(w: u32) -> u32 {
    signed((w >> 31) << 12 | (w >> 7 & 1) << 11 | (w >> 25 & 63) << 5 | (w >> 8 & 15) << 1, 13)
}

fn immediate_s(w: u32) -> u32 {
    signed((w >> 25) << 5 | (w >> 7 & 31), 12)
}

fn multiplied(funct3: u32, a: u32, b: u32) -> u32 {
    let (x, y) = (a as i32, b as i32);
    match funct3 {
        0 => a.wrapping_mul(b),
        1 => ((x as i64 * y as i64) >> 32) as u32,
        2 => ((x as i64 * b as i64) >> 32) as u32,
        3 => ((a as u64 * b as u64) >> 32) as u32,
        4 => if b == 0 { u32::MAX } else { x.wrapping_div(y) as u32 },
        5 => if b == 0 { u32::MAX } else { a / b },
        6 => if b == 0 { a } else { x.wrapping_rem(y) as u32 },
        _ => if b == 0 { a } else { a % b },
    }
}

/// The value of an arithmetic instruction, None where there is none with this funct3 and funct7.
fn arithmetic(funct3: u32, funct7: u32, a: u32, b: u32) -> Option<u32> {
    Some(match (funct7, funct3) {
        (0, 0) => a.wrapping_add(b),
        (32, 0) => a.wrapping_sub(b),
        (0, 1) => a << (b & 31),
        (0, 2) => ((a as i32) < b as i32) as u32,
        (0, 3) => (a < b) as u32,
        (0, 4) => a ^ b,
        (0, 5) => a >> (b & 31),
        (32, 5) => ((a as i32) >> (b & 31)) as u32,
        (0, 6) => a | b,
        (0, 7) => a & b,
        (1, _) => multiplied(funct3, a, b),
        _ => return None,
    })
}

impl Machine {
    fn fetch(&self) -> Option<u32> {
        if self.pc % 4 != 0 || self.pc < self.base {
            return None;
        }
        *self.code.get(((self.pc - self.base) / 4) as usize)?
    }

    fn write(&mut self, rd: u32, value: u32) {
        if rd != 0 {
            self.regs[(rd & 31) as usize] = value;
        }
    }

    /// The place of an access, or the cause of its trap: misaligned, or else the next one, outside.
    fn place(&self, addr: u32, size: u32, misaligned: u8) -> Result<usize, u8> {
        if addr % size != 0 {
            return Err(misaligned);
        }
        if addr < self.base || addr as u64 + size as u64 > self.base as u64 + self.ram.len() as u64 {
            return Err(misaligned + 1);
        }
        Ok((addr - self.base) as usize)
    }

    fn load(&self, funct3: u32, addr: u32) -> Result<u32, u8> {
        let size = 1 << (funct3 & 3);
        let at = self.place(addr, size, 4)?;
        let bytes = &self.ram[at..at + size as usize];
        Ok(match funct3 {
            0 => bytes[0] as i8 as u32,
            1 => i16::from_le_bytes([bytes[0], bytes[1]]) as u32,
            2 => u32::from_le_bytes([bytes[0], bytes[1], bytes[2], bytes[3]]),
            4 => bytes[0] as u32,
            _ => u16::from_le_bytes([bytes[0], bytes[1]]) as u32,
        })
    }

    fn store(&mut self, funct3: u32, addr: u32, value: u32) -> Result<(), u8> {
        let size = 1 << funct3;
        let at = self.place(addr, size, 6)?;
        self.ram[at..at + size as usize].copy_from_slice(&value.to_le_bytes()[..size as usize]);
        Ok(())
    }

    fn execute(&mut self, w: u32) -> Result<Stepped, u8> {
        let (rd, funct3, funct7) = (w >> 7 & 31, w >> 12 & 7, w >> 25);
        let (a, b) = (self.regs[(w >> 15 & 31) as usize], self.regs[(w >> 20 & 31) as usize]);
        let immediate = ((w as i32) >> 20) as u32;
        let behind = self.pc.wrapping_add(4);
        let mut next = behind;
        match w & 127 {
            0x37 => self.write(rd, w & 0xffff_f000),
            0x17 => self.write(rd, self.pc.wrapping_add(w & 0xffff_f000)),
            0x6f | 0x67 => {
                next = if w & 127 == 0x6f { self.pc.wrapping_add(immediate_j(w)) } else { a.wrapping_add(immediate) & !1 };
                if next % 4 != 0 {
                    return Err(0);
                }
                self.write(rd, behind);
            }
            0x63 => {
                let taken = match funct3 {
                    0 => a == b,
                    1 => a != b,
                    4 => (a as i32) < b as i32,
                    5 => a as i32 >= b as i32,
                    6 => a < b,
                    7 => a >= b,
                    _ => return Err(2),
                };
                if taken {
                    next = self.pc.wrapping_add(immediate_b(w));
                }
                if next % 4 != 0 {
                    return Err(0);
                }
            }
            0x03 if funct3 < 6 && funct3 != 3 => {
                let value = self.load(funct3, a.wrapping_add(immediate))?;
                self.write(rd, value);
            }
            0x23 if funct3 < 3 => self.store(funct3, a.wrapping_add(immediate_s(w)), b)?,
            0x13 => {
                let shifts = funct3 == 1 || funct3 == 5;
                let (funct7, b) = if shifts { (funct7, w >> 20 & 31) } else { (0, immediate) };
                let value = if shifts && funct7 == 1 { None } else { arithmetic(funct3, funct7, a, b) };
                self.write(rd, value.ok_or(2)?);
            }
            0x33 => {
                let value = arithmetic(funct3, funct7, a, b).ok_or(2)?;
                self.write(rd, value);
            }
            0x0f if funct3 == 0 => {}
            0x73 if w == 0x73 => return Ok(Stepped::Exit),
            0x73 if w == 0x0010_0073 => return Err(3),
            _ => return Err(2),
        }
        self.pc = next;
        Ok(Stepped::Next)
    }

    fn step(&mut self) -> Stepped {
        match self.fetch() {
            None => Stepped::Trap(1),
            Some(word) => self.execute(word).unwrap_or_else(Stepped::Trap),
        }
    }
}

const BASE: u32 = 0x0001_0000;
const SIZE: usize = 1 << 20;
const LOOP: [u32; 5] = [0x0013_0313, 0x0063_83b3, 0x0001_2403, 0x0071_2023, 0xfe03_18e3];

fn main() {
    let steps: u64 = std::env::args().nth(1).and_then(|n| n.parse().ok()).expect("a number of steps");
    let mut code = vec![None; SIZE / 4];
    for (place, word) in code.iter_mut().zip(LOOP) {
        *place = Some(word);
    }
    let mut machine = Machine { pc: BASE, regs: [0; 32], base: BASE, ram: vec![0; SIZE], code };
    machine.regs[2] = BASE + SIZE as u32 - 16;
    for _ in 0..steps {
        match machine.step() {
            Stepped::Next => {}
            Stepped::Exit => break,
            Stepped::Trap(cause) => panic!("cause {cause}"),
        }
    }
    println!("x6 {:08x}\nx7 {:08x}\npc {:08x}", machine.regs[6], machine.regs[7], machine.pc);
}
