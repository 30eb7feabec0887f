//! Where the records of a module do not stand. Whether they do is the library's word; this tells people which instruction to look at.

use kollafrin::{tag, Records};

/// The first instruction, from 0, that one of the four rules of standing (docs/REFERENCE.md, "Standing") turns away, and why; the count and
/// why where only a memory model is missing. None where the records stand.
pub fn fault(records: Records<'_>) -> Option<(usize, &'static str)> {
    // the greatest tag so far of sections and functions, and of the function at hand its index and whether it has a label
    let (mut reached, mut model, mut bodies) = (0, false, false);
    let (mut function, mut body) = (0, false);
    for (index, instruction) in records.instructions().enumerate() {
        match instruction.tag {
            section @ 1..=tag::TYPE_CONSTANT_GLOBAL => {
                if section < reached {
                    return Some((index, "its section belongs before what stands ahead of it"));
                }
                if section == tag::MEMORY_MODEL && model {
                    return Some((index, "a memory model was given before"));
                }
                model |= section == tag::MEMORY_MODEL;
                reached = section;
            }
            tag::FUNCTION => (reached, function, body) = (tag::FUNCTION, index, false),
            tag::FUNCTION_PARAMETER if body => return Some((index, "a parameter stands after a label of its function")),
            tag::LABEL => body = true,
            tag::FUNCTION_END if bodies && !body => return Some((function, "a function without a body stands after one with a body")),
            tag::FUNCTION_END => bodies |= body,
            _ => (),
        }
    }
    if model {
        None
    } else {
        Some((records.instructions().len(), "there is no memory model"))
    }
}

#[cfg(test)]
mod tests {
    use super::fault;
    use kollafrin::Module;

    /// Modules of pieces put together at random: a place is told exactly where the library says that they do not stand.
    #[test]
    fn a_place_is_told_where_the_library_says_no() {
        let pieces: [&[u32]; 11] = [
            &[0x0002_0011, 0],
            &[0x0003_000E, 0, 1],
            &[0x0003_000E, 0, 1],
            &[0x0003_0007, 1, 0],
            &[0x0002_0013, 2],
            &[0x0001_013D],
            &[0x0005_0036, 2, 3, 0, 4],
            &[0x0003_0037, 2, 5],
            &[0x0002_00F8, 6],
            &[0x0001_00FD],
            &[0x0001_0038],
        ];
        let whole: [&[u32]; 4] = [
            &[0x0005_0036, 2, 3, 0, 4, 0x0001_0038],
            &[0x0005_0036, 2, 3, 0, 4, 0x0003_0037, 2, 5, 0x0001_0038],
            &[0x0005_0036, 2, 3, 0, 4, 0x0003_0037, 2, 5, 0x0002_00F8, 6, 0x0001_00FD, 0x0001_0038],
            &[0x0005_0036, 2, 3, 0, 4, 0x0002_00F8, 6, 0x0003_0037, 2, 5, 0x0001_00FD, 0x0001_0038],
        ];
        let mut seed = 1u32;
        let mut random = |below: usize| {
            seed = seed.wrapping_mul(1_664_525).wrapping_add(1_013_904_223);
            (seed >> 8) as usize % below
        };
        let (mut yes, mut no) = (0, 0);
        for _ in 0..200_000 {
            let mut words = vec![0x0723_0203, 0x0001_0000, 0, 0, 0];
            if random(2) == 0 {
                words.extend([0x0003_000E, 0, 1]);
            }
            for _ in 0..random(6) {
                words.extend(if random(2) == 0 { whole[random(4)] } else { pieces[random(11)] });
            }
            let bytes: Vec<u8> = words.iter().flat_map(|w: &u32| w.to_le_bytes()).collect();
            let Ok(module) = Module::load_builtin(&bytes) else { continue };
            let told = fault(module.records());
            assert_eq!(module.standing(), Ok(told.is_none()), "{words:x?} {told:?}");
            *if told.is_none() { &mut yes } else { &mut no } += 1;
        }
        assert!(yes > 1_000 && no > 1_000, "{yes} {no}");
    }
}
