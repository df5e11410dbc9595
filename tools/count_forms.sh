#!/usr/bin/env bash
# Counts the places in crates/*/src that docs/DESIGN-PASS.md speaks of, in the working tree or in a commit:
# tools/count_forms.sh [COMMIT]
set -euo pipefail
cd "$(dirname "$0")/.."

lines() { git grep -hE "$1" ${commit:+"$commit"} -- 'crates/*.rt' | wc -l || true; }

commit=${1:-}
echo "Option and Result by hand: arms of None   $(lines '^ *None => ')"
echo "Option and Result by hand: errors passed on   $(lines 'Err\([a-z_]+\) => (return )?Err\(')"
echo "Option and Result by hand: None returned   $(lines 'return None;')"
echo "numbers and flags for kinds   $(lines 'Ruling::(Fault|Waits)|Limit\(u8\)|Limit\([0-9]+\)|Some\([1-7]\)$|member: bool')"
echo "loops that count   $(lines 'for [a-z_]+ in 0\.\.|while [a-z_]+ < ')"
echo "equality by hand   $(lines 'fn (same[a-z_]*|is|is_boolean|is_full|refused)\(')"
echo "printing by hand   $(lines '= [a-z]+\.(number|place)\(\);')"
echo "a text beside its tables   $(lines "^ *text: &('a )?\[u8\],$|\(text: &('a )?\[u8\], outline")"
echo "a relationship beside two cells   $(lines 'relationship: u8, from: u8, to: u8')"
echo "arrays in a struct   $(lines '^ +(pub )?[a-z_]+: \[.*; [A-Z0-9a-z]+\],$')"
echo "traits for a closure, switches   $(lines 'impl.* (Test|Places|Rule|Members)(<.*>)? for|trait (Test|Places|Rule|Members)|Asked::(To|Instance)|Asked ')"
