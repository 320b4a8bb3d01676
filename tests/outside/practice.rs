//! The differential test of practice tables: the sheets that are made of policy, cores, tasks and a 16-bit number.

use crate::model::{self, Practice, LONGEST, POLICIES, TABLE, TASKS};
use crate::rng::Rng;
use crate::{calls, gen, Lent, Run, Subject};
use std::collections::HashSet;

/// Policies, cores and tasks within what is accepted and on both sides of it.
const VALUES: [u8; 12] = [0, 1, 2, 3, 4, 5, 6, 7, 8, 9, 10, 255];

impl Run {
    /// The sheet of a practice table, into a space of that length, which is then read back as the same table. Returns the bytes that
    /// the library wrote.
    fn practice(&mut self, r: &mut Rng, given: Practice, out_len: usize) -> Result<Vec<u8>, String> {
        let mut out = Lent::new(r, out_len);
        let answer = calls::practice(given, out.space());
        let made = self.m.practice(given);
        let sheet = made.as_ref().map(model::write_sheet).map_err(|n| *n);
        let len = sheet.as_ref().map_or(0, Vec::len);
        let wrote = out.is()[..len.min(out_len)].to_vec();
        self.written(r, "practice", out, answer, sheet)?;
        if made.is_err() || out_len < len {
            return Ok(Vec::new());
        }
        self.met.add(&format!("practice tables of {} tasks", given.tasks));
        let s = Subject { sheet: wrote, reading: made, levels: None };
        self.read(r, &s, TABLE)?;
        Ok(s.sheet)
    }

    /// A practice table, with spaces of these lengths.
    fn practice_into(&mut self, r: &mut Rng, given: Practice, lengths: &[usize]) -> Result<(), String> {
        for &len in lengths {
            self.practice(r, given, len).map_err(|e| format!("{given:?}: {e}"))?;
        }
        Ok(())
    }

    /// One or two practice tables, with spaces round the sheet's length.
    pub fn practices(&mut self, r: &mut Rng) -> Result<(), String> {
        for _ in 0..r.range(1, 2) {
            let given = gen::practice(r);
            let len = self.m.practice(given).map_or(LONGEST, |t| model::write_sheet(&t).len());
            let any = r.below(LONGEST + 9);
            self.practice_into(r, given, &[0, len - 1, len, len + 1, any])?;
        }
        Ok(())
    }

    /// Every policy, number of cores and number of tasks, with some seeds; and for each number of tasks every length of the space.
    pub fn every_practice(&mut self, r: &mut Rng) -> Result<(), String> {
        for (policy, cores) in VALUES.iter().flat_map(|&policy| VALUES.map(|cores| (policy, cores))) {
            for tasks in VALUES {
                for seed in [0, u16::MAX, r.next() as u16] {
                    self.practice_into(r, Practice { policy, cores, tasks, seed }, &[LONGEST])?;
                }
            }
        }
        let every_length: Vec<usize> = (0..LONGEST + 9).collect();
        for tasks in 1..=TASKS as u8 {
            let seed = r.next() as u16;
            let given = Practice { tasks, ..some(r, seed) };
            self.practice_into(r, given, &every_length)?;
        }
        Ok(())
    }

    /// Every seed with eight tasks: of the sheets as many differ as of the model's tables.
    pub fn every_seed(&mut self, r: &mut Rng) -> Result<(), String> {
        let (mut sheets, mut tables) = (HashSet::new(), HashSet::new());
        for seed in 0..=u16::MAX {
            let given = some(r, seed);
            let sheet = self.practice(r, given, LONGEST).map_err(|e| format!("{given:?}: {e}"))?;
            sheets.insert(sheet[4..].to_vec());
            tables.extend(self.m.practice(given).map(|t| t.tasks));
        }
        if sheets.len() != tables.len() {
            return Err(format!("{} sheets differ, and {} tables", sheets.len(), tables.len()));
        }
        self.met
            .greatest("is the number of different practice tables of 8 tasks, but for policy and cores", tables.len());
        Ok(())
    }
}

/// Eight tasks of this seed, under some policy on some cores.
fn some(r: &mut Rng, seed: u16) -> Practice {
    let (policy, cores) = (r.below(POLICIES as usize) as u8, r.range(1, 8) as u8);
    Practice { policy, cores, tasks: TASKS as u8, seed }
}
