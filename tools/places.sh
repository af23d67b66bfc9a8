#!/usr/bin/env bash
# The places that docs/DESIGN-PASS.md counts, by the commands that stand here: run at the top of the repository.
count() { printf '%5d  %s: %s\n' "$(eval "$2" | wc -l)" "$1" "$2"; }
count 1a "grep -rnE '^(pub )?enum ' crates/*/src"
count 1b "grep -rnE 'number: [0-9]+|refused\([0-9]+\)|number == [0-9]+' crates/*/src"
count 1c "grep -rnE 'good: bool|refused: bool|biased: 0,|return (0|255|65535);|NO_PLACE|kept: u64|way: u64' crates/*/src"
count 1d "grep -rnE 'fn (type_number|compression_number|encoding_number|element_of|compression_of|encoding_of|compression|element_type)\b|-> Whole' crates/*/src"
count 2 "grep -rnE 'fn (le[248]|put[1248]|put_(3|7|15)|part|short|at_most_1024|least|type_length|put_type|compression_length|put_compression|put_text|put_short|put_block|copy|copy_block|levels|near)\(' crates/*/src"
count 3 "grep -rnE '^ *while ' crates/*/src"
count 4a "grep -rnE 'as (u16|u32|u64|usize|i64|u8)\b' crates/*/src"
count 4b "grep -rnE 'return (true|false);' crates/*/src"
count 4c "grep -rnE '\b([a-z_]+): \1\b' crates/*/src"
count 5a "grep -rnE '(from|at): usize, to: usize' crates/*/src"
count 5b "grep -rn '(from ≤ to) × (to ≤ length file.now)' crates/*/src"
count 5c "grep -rn 'Top top × Between top' crates/*/src"
count 6 "grep -rnE '(numbers|ends|sizes): &\[usize\]|window: &mut \[u8\]' crates/*/src"
count 7 "grep -rnE 'writing: bool|class: Class|way: u64' crates/*/src"
count 8a "find crates -path '*/proofs/*' -name Proof.antt"
count 8b "find crates -path '*/proofs/*' -name '*.antt' -exec cat {} +"
