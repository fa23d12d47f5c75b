//! Instruction execution (14.8) by the numeric codes of A.2, and the
//! instructions that are neither arithmetic nor shifts.

use crate::bits::{add_address, bit, extend_byte, signed_word, BYTE};
use crate::channel::{device_number, Command};
use crate::cycle::{Exception, Processor, Step};
use crate::store::{first_word, register_before};
use crate::times;

impl Processor<'_> {
    /// `goto operation(FR(0:5))`. `w` is FR(6:7), `sb` the effective address.
    pub fn execute(&mut self, operation: u32, w: u32, sb: u32) -> Step {
        match operation {
            0 => self.autoload_word(sb),
            1 => self.input_output(w, sb),
            2 => self.load_integer_byte(w, sb),
            3 => self.load_half_register(w, sb),
            4 => self.combine(w, sb, |register, word| register & word),
            5 => self.combine(w, sb, |register, word| register | word),
            6 => self.combine(w, sb, |register, word| register ^ word),
            7 => self.add_word(w, sb),
            8 => self.subtract_word(w, sb),
            9 => self.modify_next_address(sb),
            10 => self.multiply_word(w, sb),
            11 => self.load_address(w, sb),
            12 => self.load_mask_register(sb),
            13 => self.jump_with_register_link(w, sb),
            14 => self.jump_with_interrupts(w, sb, false),
            15 => self.jump_with_interrupts(w, sb, true),
            16 => self.load_exception_register(sb),
            17 => self.subtract_byte(w, sb),
            18 => self.add_byte(w, sb),
            19 => self.load_byte_with_zeroes(w, sb),
            20 => self.load_register(w, sb),
            21 => self.skip_if_no_protection(sb),
            22 => self.load_protection_key(w, sb),
            23 => self.store_register(w, sb),
            24 => self.divide_word(w, sb),
            25 => self.exchange_register(w, sb),
            26 => self.store_half_register(w, sb),
            27 => self.store_byte(sb, self.control.ex),
            28 => self.load_protection_register(sb),
            29 => self.store_byte(sb, self.control.pr),
            30 => self.store_word(sb, self.control.im),
            31 => self.store_word(sb, self.control.ir),
            32 => self.convert_integer_to_floating(w, sb),
            33 => self.load_address_complemented(w, sb),
            34 => self.normalize_single(w, sb),
            35 => self.normalize_double(w, sb),
            36 => self.shift_single_arithmetically(w, sb),
            37 => self.shift_double_arithmetically(w, sb),
            38 => self.shift_single_logically(w, sb),
            39 => self.shift_double_logically(w, sb),
            40 => self.skip_compared(w, sb, |register, address| register > address),
            41 => self.skip_compared(w, sb, |register, address| register < address),
            42 => self.skip_compared(w, sb, |register, address| register == address),
            43 => self.skip_compared(w, sb, |register, address| register != address),
            44 => self.skip_if(sb & !self.store.register(w) == 0),
            45 => self.skip_if(sb & self.store.register(w) == 0),
            46 => self.skip_if(sb & self.control.ex == 0),
            47 => self.clear_interrupt_bits(sb),
            48 => self.add_floating(w, sb),
            49 => self.subtract_floating(w, sb),
            50 => self.multiply_floating(w, sb),
            51 => self.store_protection_key(w, sb),
            52 => self.divide_floating(w, sb),
            53 => self.convert_floating_to_integer(w, sb),
            54 => self.load_double_register(w, sb),
            55 => self.store_double_register(w, sb),
            56 => self.add_double_word(w, sb),
            57 => self.subtract_double_word(w, sb),
            _ => Err(Exception),
        }
    }

    /// AM: the address is left for the next instruction's displacement.
    fn modify_next_address(&mut self, sb: u32) -> Step {
        self.control.pending = sb;
        Ok(())
    }

    /// AL.
    fn load_address(&mut self, w: u32, sb: u32) -> Step {
        self.store.set_register(w, sb);
        Ok(())
    }

    /// HL.
    fn load_half_register(&mut self, w: u32, sb: u32) -> Step {
        self.test_address(sb)?;
        let left = self.store.register(w) & !BYTE;
        let byte = self.store.byte(sb);
        self.store.set_register(w, left | byte);
        Ok(())
    }

    /// HS.
    fn store_half_register(&mut self, w: u32, sb: u32) -> Step {
        self.store_byte(sb, self.store.register(w))
    }

    /// RL.
    fn load_register(&mut self, w: u32, sb: u32) -> Step {
        self.test_address(sb)?;
        self.store.set_register(w, self.store.word(sb));
        Ok(())
    }

    /// RS.
    fn store_register(&mut self, w: u32, sb: u32) -> Step {
        self.store_word(sb, self.store.register(w))
    }

    /// RX: W is loaded before the protection is tested.
    fn exchange_register(&mut self, w: u32, sb: u32) -> Step {
        let ar = self.store.register(w);
        self.test_address(sb)?;
        self.store.set_register(w, self.store.word(sb));
        self.test_protection(sb)?;
        self.store.set_word(sb, ar);
        Ok(())
    }

    /// DL: the first word is read after W was written.
    fn load_double_register(&mut self, w: u32, sb: u32) -> Step {
        self.test_address(sb)?;
        self.store.set_register(w, self.store.word(sb));
        let first = self.store.word(first_word(sb));
        self.store.set_register(register_before(w), first);
        Ok(())
    }

    /// DS: the second word is tested and written before the first is tested.
    fn store_double_register(&mut self, w: u32, sb: u32) -> Step {
        self.test_access(sb)?;
        self.store.set_word(sb, self.store.register(w));
        let sb = first_word(sb);
        self.test_protection(sb)?;
        let first = self.store.register(register_before(w));
        self.store.set_word(sb, first);
        Ok(())
    }

    /// BZ.
    fn load_byte_with_zeroes(&mut self, w: u32, sb: u32) -> Step {
        self.test_address(sb)?;
        self.store.set_register(w, self.store.byte(sb));
        Ok(())
    }

    /// BL.
    fn load_integer_byte(&mut self, w: u32, sb: u32) -> Step {
        self.test_address(sb)?;
        self.store.set_register(w, extend_byte(self.store.byte(sb)));
        Ok(())
    }

    /// LA, LO, LX.
    fn combine(&mut self, w: u32, sb: u32, operator: fn(u32, u32) -> u32) -> Step {
        self.test_address(sb)?;
        let result = operator(self.store.register(w), self.store.word(sb));
        self.store.set_register(w, result);
        Ok(())
    }

    /// `Test Address; Test Protection; word(SB) := word`: RS, IS, MS.
    fn store_word(&mut self, sb: u32, word: u32) -> Step {
        self.test_access(sb)?;
        self.store.set_word(sb, word);
        Ok(())
    }

    /// `Test Address; Test Protection; byte(SB) := byte`: HS, XS, PS, NS, ND.
    pub fn store_byte(&mut self, sb: u32, byte: u32) -> Step {
        self.test_access(sb)?;
        self.store.set_byte(sb, byte);
        Ok(())
    }

    /// JL.
    fn jump_with_register_link(&mut self, w: u32, sb: u32) -> Step {
        self.test_access(sb)?;
        self.jump(w, sb);
        Ok(())
    }

    /// JE, JD.
    fn jump_with_interrupts(&mut self, w: u32, sb: u32, enabled: bool) -> Step {
        self.test_mode()?;
        self.test_address(sb)?;
        self.control.enabled = enabled;
        self.jump(w, sb);
        Ok(())
    }

    /// The link, if the W field is not 0, then the jump.
    fn jump(&mut self, w: u32, sb: u32) {
        if w != 0 {
            self.store.set_register(w, self.control.ic);
        }
        self.control.ic = sb & !1;
    }

    /// `if condition then IC := IC + 2`.
    fn skip_if(&mut self, condition: bool) -> Step {
        if condition {
            self.control.ic = add_address(self.control.ic, 2);
        }
        Ok(())
    }

    /// SH, SL, SE, SN: register and address compared as signed integers.
    fn skip_compared(&mut self, w: u32, sb: u32, holds: fn(i32, i32) -> bool) -> Step {
        self.skip_if(holds(signed_word(self.store.register(w)), signed_word(sb)))
    }

    /// SP.
    fn skip_if_no_protection(&mut self, sb: u32) -> Step {
        self.test_address(sb)?;
        self.skip_if(!self.control.forbids(self.store.key(sb)))
    }

    /// IC.
    fn clear_interrupt_bits(&mut self, sb: u32) -> Step {
        self.test_mode()?;
        self.control.ir &= !sb;
        Ok(())
    }

    /// ML: bit 0 of the mask register is always one.
    fn load_mask_register(&mut self, sb: u32) -> Step {
        self.test_mode()?;
        self.test_address(sb)?;
        self.control.im = self.store.word(sb) | bit(0);
        Ok(())
    }

    /// XL.
    fn load_exception_register(&mut self, sb: u32) -> Step {
        self.test_address(sb)?;
        self.control.ex = self.store.byte(sb) & 7;
        Ok(())
    }

    /// PL: bit 0 of the protection register is always one.
    fn load_protection_register(&mut self, sb: u32) -> Step {
        self.test_mode()?;
        self.test_address(sb)?;
        self.control.pr = (self.store.byte(sb) & 255) | 128;
        Ok(())
    }

    /// KL.
    fn load_protection_key(&mut self, w: u32, sb: u32) -> Step {
        self.test_address(sb)?;
        self.store.set_register(w, self.store.key(sb));
        Ok(())
    }

    /// KS.
    fn store_protection_key(&mut self, w: u32, sb: u32) -> Step {
        self.test_mode()?;
        self.test_address(sb)?;
        let key = self.store.register(w) & 7;
        self.store.set_key(sb, key);
        Ok(())
    }

    /// IO: EX 22 tells a disconnected device, for which nothing else is done. No
    /// device is busy, and control does nothing (02, E1).
    fn input_output(&mut self, w: u32, sb: u32) -> Step {
        self.test_mode()?;
        let (device, command) = (device_number(sb), Command::from_address(sb));
        let disconnected = self.channel.is_disconnected(device, command);
        self.control.ex = (self.control.ex & 4) | (u32::from(disconnected) << 1);
        if disconnected {
            self.time += times::REJECTED;
            return Ok(());
        }
        self.time += times::input_output(command);
        match command {
            Command::Sense => self.store.set_register(w, self.channel.buffer(device)),
            Command::Control => (),
            Command::Read => self.channel.read(device),
            Command::Write => self.channel.write(device, self.store.register(w)),
        }
        Ok(())
    }

    /// AW: four characters are read before the address is tested. Where the
    /// reader has fewer, the machine is reset (11.5; 02, E1).
    fn autoload_word(&mut self, sb: u32) -> Step {
        self.test_mode()?;
        match self.input_word() {
            Some(word) => {
                self.test_address(sb)?;
                self.store.set_loaded(sb, word);
            }
            None => self.reset_system(),
        }
        Ok(())
    }

    /// Four characters of the reader as a word, with `EX(22:23) := 0`; nothing
    /// changes where fewer are left.
    pub fn input_word(&mut self) -> Option<u32> {
        let word = self.channel.read_word()?;
        self.control.ex &= 4;
        Some(word)
    }
}
