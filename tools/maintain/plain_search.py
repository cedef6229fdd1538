#!/usr/bin/env python3
"""The search as plain Rust, to be profiled and tuned: its sources with all contracts taken off, built by `rustc`.

usage: tools/maintain/plain_search.py FOLDER

Writes `expanded_search` and the crates below it to FOLDER/src, a few lines of Rust in place of the toolchain's `Vec`
and of what the searches do not use, and builds FOLDER/search, which takes a formula in DIMACS form and a number of
units:

    FOLDER/search FORMULA [UNITS]
    FOLDER/search --gates FORMULA [UNITS]
    FOLDER/search --plan FORMULA [UNITS]

It prints the verdict, the lemmas and the steps of the log, and the seconds: the same lemmas as by the proved program,
in about the same time. With `--gates` the formula's gates are written out, and what is printed is what
`expanded_search` finds. With `--plan` the search follows the plan of `counter_pairs` from the first lemma on, where
there is one. So what only guides the search can be tried in a minute, where a proof takes ten; what is found is then
written into the crate and proved. Wants a `rustc` that knows the edition of 2024; nothing of the gate uses it.
"""
from __future__ import annotations

import glob
import os
import re
import shutil
import subprocess
import sys

sys.dont_write_bytecode = True
sys.path.insert(0, os.path.join(os.path.dirname(os.path.dirname(os.path.realpath(__file__))), "build"))

import command_line

TOP = os.path.dirname(os.path.dirname(os.path.dirname(os.path.realpath(__file__))))

CRATES = [
    "lrat_model",
    "lrat_text",
    "clause_store",
    "assignment_trail",
    "search_heuristics",
    "cardinality_counts",
    "cdcl_core",
    "rat_candidates",
    "lrat_checker",
    "counter_expansion",
    "expanded_search",
    "counter_pairs",
]
# what of a crate the searches use, where that is not all
PARTS = {"lrat_model": ["lit"], "lrat_text": ["arena", "entry", "lent", "log"]}
ROOTS = {
    "lrat_model": (
        "mod lit; pub use self::lit::Lit; pub use crate::kit::{ClauseStatus, Progress, Rule, Step, StepFault};"
    ),
    "lrat_text": "mod arena; mod entry; mod lent; mod log; pub use self::lent::*; pub use self::log::Log;",
}
CLAUSE = re.compile(r"^[ \t]*(?:requires|ensures)\b[^{\n]*\{", re.M)
VIEW = re.compile(r"^[ \t]*impl(?:<[^>]*>)? (?:Model|fmt::Display) for [^{]*\{", re.M)
KIT = """
use std::ops::{Deref, DerefMut};
use crate::lrat_model::Lit;

#[derive(Debug, Clone, Copy, PartialEq, Eq)]
pub struct AllocError;

#[derive(Debug, Clone, Copy)]
pub struct Global;

static GLOBAL: Global = Global;

#[derive(Debug)]
pub struct Vec<T>(pub std::vec::Vec<T>);

impl<T> Vec<T> {
    pub fn new(_: Global) -> Self { Vec(std::vec::Vec::new()) }
    pub fn with_capacity(_: Global, n: usize) -> Result<Self, AllocError> { Ok(Vec(std::vec::Vec::with_capacity(n))) }
    pub fn push(&mut self, item: T) -> Result<(), AllocError> { self.0.push(item); Ok(()) }
    pub fn pop(&mut self) -> Option<T> { self.0.pop() }
    pub fn truncate(&mut self, n: usize) { self.0.truncate(n) }
    pub fn clear(&mut self) { self.0.clear() }
    pub fn reserve(&mut self, n: usize) -> Result<(), AllocError> { self.0.reserve(n); Ok(()) }
    pub fn as_slice(&self) -> &[T] { &self.0 }
    pub fn allocator(&self) -> &Global { &GLOBAL }
    pub fn as_mut_slice(&mut self) -> &mut [T] { &mut self.0 }
}

impl<T: Clone> Vec<T> {
    pub fn extend_from_slice(&mut self, s: &[T]) -> Result<(), AllocError> { self.0.extend_from_slice(s); Ok(()) }
    pub fn from_slice(_: Global, s: &[T]) -> Result<Self, AllocError> { Ok(Vec(s.to_vec())) }
    pub fn resize(&mut self, n: usize, item: T) -> Result<(), AllocError> { self.0.resize(n, item); Ok(()) }
}

impl<T> Deref for Vec<T> { type Target = [T]; fn deref(&self) -> &[T] { &self.0 } }

impl<T> DerefMut for Vec<T> { fn deref_mut(&mut self) -> &mut [T] { &mut self.0 } }

impl<'a, T> IntoIterator for &'a Vec<T> {
    type Item = &'a T;
    type IntoIter = std::slice::Iter<'a, T>;
    fn into_iter(self) -> Self::IntoIter { self.0.iter() }
}

impl<T> IntoIterator for Vec<T> {
    type Item = T;
    type IntoIter = std::vec::IntoIter<T>;
    fn into_iter(self) -> Self::IntoIter { self.0.into_iter() }
}

#[macro_export]
macro_rules! filled {
    (in $alloc:expr; $item:expr; $n:expr) => {{ let _ = $alloc; Ok::<_, AllocError>(Vec(vec![$item; $n])) }}
}

#[derive(Debug)]
pub enum Step { Add { id: u64, lits: Vec<Lit>, hints: Vec<i64> }, Delete { id: u64, ids: Vec<u64> } }

#[derive(Debug, Clone, Copy, PartialEq, Eq)]
pub enum Rule { Rup, Rat }

#[derive(Debug, Clone, Copy, PartialEq, Eq)]
pub enum Progress { Going, Refuted }

#[derive(Debug)]
pub enum StepFault {
    IdOrder(u64, u64),
    BadLiteral(Lit),
    Tautology(Lit),
    NoSuchClause(u64),
    NotUnit(u64),
    NoConflict,
    RatStep(u64),
    RatMissing(u64),
    Memory,
}

#[derive(Clone, Copy)]
pub enum ClauseStatus { Falsified, Forces(Lit), Unresolved }
"""
MAIN = """#![allow(warnings)]
#[macro_use]
mod kit;
mod lrat_model;
mod lrat_text;
mod clause_store;
mod assignment_trail;
mod search_heuristics;
mod cardinality_counts;
mod cdcl_core;
mod rat_candidates;
mod lrat_checker;
mod counter_expansion;
mod expanded_search;
mod counter_pairs;
use kit::*;

fn main() {
    let mut words: std::vec::Vec<String> = std::env::args().collect();
    let has_gates = words[1] == "--gates";
    let has_plan = words[1] == "--plan";
    if has_gates || has_plan {
        words.remove(1);
    }
    let units = words.get(2).map_or(4_000_000, |it| it.parse().unwrap());
    let text = std::fs::read_to_string(&words[1]).unwrap();
    let (mut vars, mut id, mut lits) = (0, 0, std::vec::Vec::new());
    let mut store = clause_store::Store::new(Global);
    for line in text.lines().filter(|it| !it.starts_with('c')) {
        if let Some(sizes) = line.strip_prefix("p cnf") {
            vars = sizes.split_whitespace().next().unwrap().parse().unwrap();
            continue;
        }
        for number in line.split_whitespace().map(|it| it.parse().unwrap()) {
            if number != 0 {
                lits.push(lrat_model::Lit(number));
                continue;
            }
            id += 1;
            store.push(id, &lits).unwrap();
            lits.clear();
        }
    }
    let since = std::time::Instant::now();
    if has_gates {
        let found = expanded_search::search(Global, &store, vars, units).unwrap();
        let told = match &found {
            Some(expanded_search::Found::Refuted(log)) => format!("refuted in {} steps", log.len()),
            Some(expanded_search::Found::Spent(log)) => format!("spent after {} steps", log.len()),
            Some(expanded_search::Found::Told(_)) => "told".to_string(),
            None => "nowhere".to_string(),
        };
        println!("{told} seconds {:.2}", since.elapsed().as_secs_f64());
        return;
    }
    let mut solver = cdcl_core::Solver::start(Global, &store, vars).unwrap();
    if has_plan {
        let plan = counter_pairs::plan_of(Global, &store, vars).unwrap();
        print!("{} after {:.3} ", if plan.is_some() { "planned" } else { "no plan" }, since.elapsed().as_secs_f64());
        if let Some(plan) = plan {
            solver.plan(plan);
        }
    }
    let mut budget = cdcl_core::Budget::of(units);
    let verdict = solver.solve(&mut budget).unwrap();
    let (lemmas, steps) = (units - budget.left(), solver.log().len());
    println!("{verdict:?} lemmas {lemmas} steps {steps} seconds {:.2}", since.elapsed().as_secs_f64());
}
"""


def end_of_braces(text: str, at: int) -> int:
    """The place behind the brace that closes the one at a place."""
    depth = 0
    while True:
        depth += {"{": 1, "}": -1}.get(text[at], 0)
        at += 1
        if not depth:
            return at


def without(text: str, pattern: re.Pattern[str]) -> str:
    """The text without each part that begins so and ends with its closing brace."""
    while found := pattern.search(text):
        text = text[: found.start()] + text[end_of_braces(text, found.end() - 1) :]
    return text


def plain(text: str, crate: str) -> str:
    """A file of a crate without its contracts, as one of a module of this name."""
    text = without(without(text, CLAUSE), VIEW)
    text = re.sub(
        r"^[ \t]*ghost [^;]*;\n|^//![^\n]*\n|^use std::(?:fmt|marker::Model);\n|#!\[tactic[^\n]*\n",
        "",
        text,
        flags=re.M,
    )
    text = re.sub(r"#\[derive\((?:Debug, )?Drop\)\]\n", "", text)
    text = text.replace("use crate::", f"use crate::{crate}::").replace("use std::alloc::", "use crate::kit::")
    for other in CRATES:
        text = re.sub(rf"\buse {other}::", f"use crate::{other}::", text)
    return text.replace("vec![in ", "filled![in ").replace("#[inline]", "#[inline(always)]")


def root(text: str, crate: str) -> str:
    """The root of a crate as the root of a module: what it takes from its own files it names as such."""
    return re.sub(r"\bpub use (?!crate::)", "pub use self::", plain(text, crate))


def write(folder: str) -> None:
    for crate in CRATES:
        top = f"{TOP}/crates/{crate}/src"
        for path in sorted(glob.glob(f"{top}/**/*.rt", recursive=True)):
            part = os.path.relpath(path, top).removesuffix(".rt")
            if part == "lib" or part not in PARTS.get(crate, [part]):
                continue
            with open(path, encoding="utf-8") as it:
                text = "use crate::kit::*;\n" + plain(it.read(), crate)
            os.makedirs(os.path.dirname(f"{folder}/src/{crate}/{part}"), exist_ok=True)
            with open(f"{folder}/src/{crate}/{part}.rs", "w", encoding="utf-8") as it:
                it.write(text)
        with open(f"{top}/lib.rt", encoding="utf-8") as it:
            text = ROOTS.get(crate) or root(it.read(), crate)
        with open(f"{folder}/src/{crate}/mod.rs", "w", encoding="utf-8") as it:
            it.write(text)
    for name, text in ("kit", KIT), ("main", MAIN):
        with open(f"{folder}/src/{name}.rs", "w", encoding="utf-8") as it:
            it.write(text)


def main() -> int:
    words = command_line.Words(__doc__)
    words.add_argument("folder", metavar="FOLDER")
    folder = words.parse_args().folder
    if not shutil.which("rustc"):
        raise ValueError("there is no rustc, which builds the search: apt-get install rustc")
    write(folder)
    built = [
        "rustc",
        "--edition",
        "2024",
        "-C",
        "opt-level=3",
        "-g",
        "-o",
        f"{folder}/search",
        f"{folder}/src/main.rs",
    ]
    return subprocess.call(built)


if __name__ == "__main__":
    sys.exit(command_line.run(main))
