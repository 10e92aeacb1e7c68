//! The original's calls on the store, and what it shows of it.
use crate::answers::{of_pool, Answer};
use crate::run::Run;
use satrs::pool::PoolProvider;

impl Run {
    pub fn add(&mut self, data: &[u8]) -> Answer {
        of_pool(self.pool.add(data), |a| vec![a])
    }

    pub fn read(&self, address: u64, buffer: &mut [u8]) -> Answer {
        of_pool(self.pool.read(&address, buffer), |n| vec![n as u64])
    }

    /// Rewrites the packet's bytes by `byte`, given the place and the old byte.
    pub fn modify(&mut self, address: u64, byte: impl Fn(usize, u8) -> u8) -> Answer {
        let mut length = 0;
        let result = self.pool.modify(&address, |block| {
            length = block.len() as u64;
            for (i, b) in block.iter_mut().enumerate() {
                *b = byte(i, *b);
            }
        });
        of_pool(result, |_| vec![length])
    }

    pub fn delete(&mut self, address: u64) -> Answer {
        of_pool(self.pool.delete(address), |_| vec![])
    }

    pub fn has(&self, address: u64) -> Answer {
        of_pool(self.pool.has_element_at(&address), |x| vec![x as u64])
    }

    pub fn len(&self, address: u64) -> Answer {
        of_pool(self.pool.len_of_data(&address), |n| vec![n as u64])
    }

    /// Every address of the setup, in order.
    pub fn addresses(&self) -> impl Iterator<Item = u64> + '_ {
        let pools = self.subpools.iter().enumerate();
        pools.flat_map(|(k, &(slots, _))| (0..slots as u64).map(move |s| (k as u64) << 16 | s))
    }

    pub fn taken(&self) -> impl Iterator<Item = u64> + '_ {
        self.addresses().filter(|a| self.pool.has_element_at(a).unwrap())
    }

    pub fn packet(&self, address: u64) -> Vec<u8> {
        self.pool.read_as_vec(&address).unwrap()
    }

    /// The bytes of every free slot, seen by reserving them all: the run is spent afterwards.
    pub fn drain(&mut self) -> Vec<(u64, Vec<u8>)> {
        let mut out = Vec::new();
        for k in (0..self.subpools.len()).rev() {
            let mut seen = Vec::new();
            let size = self.subpools[k].1;
            while let Ok(a) = self.pool.free_element(size, |b| seen = b.to_vec()) {
                out.push((a, seen.clone()));
            }
        }
        out
    }
}
