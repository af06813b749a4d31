#!/bin/sh
# The places that docs/DESIGN-PASS.md counts: run from the top of the repository.
set -eu
src='crates/*/src/*.rt'

tell() {
    printf '%4d  %-3s %s\n' "$3" "$1" "$2"
}

tell 1a "enums of the repository's own of the shape of Option or Result" \
    "$(cat $src | grep -cE '^    (Hit|Number|Room|Accepted|Value|Answered)\(.*\),$')"
tell 1b "a flag ok beside a value" "$(cat $src | grep -cE '^    (pub )?ok: bool')"
tell 1c "kinds, judgements and orders as plain numbers in a signature" "$(cat $src | grep -cE 'fn .*\b(kind|judgement|order): u32')"
tell 1d "functions from an enum's case to a number or back" "$(cat $src | grep -cE 'fn (number_of|number|code|[a-z]+_number(ed)?)\(.*(case|point|self: |n: u8\) -> [A-Za-z:]*(Phase|Kind|Stage|Drawn))')"
tell 2 "groups of functions alike but for names, types and numbers" "$(python3 tools/twins.py | grep -vc groups)"
tell 3 "loops that count by hand: while, and for over the indices of a slice" \
    "$(cat $src | grep -cE '^ *while |for [a-z][a-z_]* in [^{]*\.\.[a-z_.]*(len\(\)|to|end|count) *\{')"
tell 4a "equality by cases" "$(cat $src | grep -cE '=> (true|false),$')"
tell 4b "conversions by hand" \
    "$(cat $src | grep -cE 'std::num::wrapping_|fn (wide|one|bit|low|high|join|join_half|own_place|user_place|new_number|waited_number)\(')"
tell 4c "fields copied by hand: field: field, let x = y.x" "$(cat $src | grep -cE '^ +([a-z_0-9]+): \1,$|^ +let ([a-z_0-9]+) = [a-z_0-9.]+\.\2;$')"
tell 4d "printing by hand" "$(cat $src | grep -cE 'fn print_')"
tell 5a "requires: the image of the state lies in the memory" "$(cat $src | grep -cE 'requires .*image_length ≤ length')"
tell 5b "requires: the memory holds a state" "$(cat $src | grep -cE 'requires .*Holds mem')"
tell 5c "requires: what is needed of an unpacked state and its memory" "$(cat $src | grep -cE 'requires .*Safe ')"
tell 5d "requires: the rows of the channels lie in the memory" "$(cat $src | grep -cE 'requires .*rows_end ≤ length')"
tell 5e "the numbers of Start, one by one, in a signature" "$(cat $src | grep -cE '^ +address: u32,$')"
tell 6 "a buffer with a length or a place in it beside it, in a signature or a field" \
    "$(cat $src | grep -cE '(mem|memory|slice|channels|source|text): &(mut )?\[u8\], (len|count|lengths|from|span|verb|word)|^    (count|lengths|len): usize,$')"
tell 7 "the same guard before each step" "$(cat $src | grep -cE 'if !is_well\(')"
tell 8 "files of answers" "$(find crates/*/proofs -name Answers.antt | wc -l)"
printf 'lines: src %d, specs %d, proofs %d\n' "$(cat $src | wc -l)" "$(cat crates/*/specs/*.antt | wc -l)" \
    "$(find crates/*/proofs -name '*.antt' -exec cat {} + | wc -l)"
