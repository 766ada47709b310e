#!/usr/bin/env python3
# Prints src/target_table.rt. Every hundredth place has a mark.
HEAD = """\
// The table of targets: those of the 3,295 places from -55 to 3,239. `target_table.py` prints this file.
ghost use mathlib.Core.Path.{_≡_};
ghost use Rattle·measure·specs.specs.Target.{xTargets};

pub type TargetTable = [i32; 3295];

// The table, to be lent: an index into a constant copies the whole of it.
pub fn targets() -> TargetTable
    ensures { λ r. ⌜ r ≡ xTargets ⌝ }
{
    TARGETS
}

const TARGETS: TargetTable = ["""


def target(x):
    return (32768 * x + 1) // 3  # the whole number nearest to 32768 x / 3


print(HEAD)
for x in range(-55, 3240):
    print(f"    {target(x)}," + (f" // {x}" if x % 100 == 0 else ""))
print("];")
