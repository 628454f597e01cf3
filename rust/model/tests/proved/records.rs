//! A record of the model as one of the library, and back: the one place in the tests that names all fields of both.
#![allow(dead_code)] // each test uses some of it

use crank_model::machine::Record;

/// The library's record of the model's.
pub fn given(r: Record) -> crank::Record {
    crank::Record {
        regs: r.regs,
        qifv: r.qifv,
        qifw: r.qifw,
        k: r.k,
        m: r.m,
        n: r.n,
        position: r.position,
    }
}

/// The model's record of the library's.
pub fn got(r: crank::Record) -> Record {
    Record {
        regs: r.regs,
        qifv: r.qifv,
        qifw: r.qifw,
        k: r.k,
        m: r.m,
        n: r.n,
        position: r.position,
    }
}
