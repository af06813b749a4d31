# From a trace of qemu's, a line for each instruction with its place and its function: what the exported calls took, by the
# place that they came from, as valgrind's callgrind files have it. bench/instructions.awk makes the table of it.
#
#   awk -f cross/trace.awk [DISASSEMBLY] TRACE
#
# With the disassembly of a program for Cortex-M4, as objdump prints it, the least and the most cycles are reckoned, too:
# by the cycles that the processor's manual gives each instruction, where memory never makes it wait and no access is
# unaligned. Loads and stores of one register: 1 where they overlap with a neighbour, 2 otherwise; of n: 1 + n. Division: 2
# to 12. Multiplication with an addition: 1, or 2 to be safe. A jump that is taken: 1 to 3 more. If-then: 0 or 1. All
# others: 1. A call's line then has the sums of both over all calls, and the least and the most of a single one.

function fail(what) {
    print "trace.awk: " what >"/dev/stderr"
    exit failed = 1
}

# The functions that the library needs from outside count as its own, and so do those that they call; a jump to one of them
# may have no name.
function is_of_library(symbol) {
    return symbol ~ /^dp_|::|mem(set|clr|cpy|move)|^_wordcopy_|^__|^\[/
}

# ---- The disassembly: address, octets and text between tabulators

function registers_in(list) {
    return gsub(/,/, ",", list) + 1
}

function set_cycles(at, mnemonic, operands,    several) {
    least[at] = most[at] = 1
    if (mnemonic ~ /^(ldm|stm|push|pop)/) {
        several = substr(operands, index(operands, "{"))
        least[at] = most[at] = 1 + registers_in(several)
    } else if (mnemonic ~ /^(ldrd|strd)/) {
        least[at] = most[at] = 3
    } else if (mnemonic ~ /^(ldr|str)/) {
        most[at] = 2
    } else if (mnemonic ~ /^(mla|mls)/) {
        most[at] = 2
    } else if (mnemonic ~ /^(udiv|sdiv)/) {
        least[at] = 2
        most[at] = 12
    } else if (mnemonic ~ /^(tbb|tbh)/) {
        least[at] = most[at] = 2
    } else if (mnemonic ~ /^it/) {
        least[at] = 0
    }
}

/^ *[0-9a-f]+:\t/ {
    split($0, part, "\t")
    at = part[1]
    gsub(/[ :]/, "", at)
    at = substr("00000000" at, length(at) + 1)
    follows[before_it] = at
    before_it = at
    set_cycles(at, part[3], part[4])
    reckons = 1
    next
}

# ---- The trace: "Trace 0: HOST [X/ADDRESS/X/X] FUNCTION"

# The instruction before this one was a call's own; where this one is tells whether it jumped.
function count_instruction(next_at,    jumped) {
    instructions[call, place]++
    if (!reckons) return
    if (!(last_at in most)) fail("the disassembly has nothing at " last_at)
    jumped = next_at != follows[last_at]
    call_least += least[last_at] + (jumped ? 1 : 0)
    call_most += most[last_at] + (jumped ? 3 : 0)
}

function begin_call() {
    inside = 1
    call = symbol
    place = before
    call_least = call_most = 0
}

function end_call() {
    inside = 0
    calls[call, place]++
    sum_least[call, place] += call_least
    sum_most[call, place] += call_most
    if (calls[call, place] == 1 || call_least < least_one[call, place]) least_one[call, place] = call_least
    if (call_most > most_one[call, place]) most_one[call, place] = call_most
}

/^Trace / {
    symbol = $NF
    split($4, part, "/")
    if (inside) count_instruction(part[2])
    if (inside && symbol == place) end_call()
    else if (inside && !is_of_library(symbol)) fail(call ", called by " place ", went on in " symbol)
    else if (!inside && symbol ~ /^dp_/) begin_call()
    before = symbol
    last_at = part[2]
}

END {
    if (failed) exit 1
    print "events: instructions" (reckons ? " cycles" : "")
    for (key in calls) {
        split(key, name, SUBSEP)
        print "fn=(1) " name[2] "\ncfn=(2) " name[1] "\ncalls=" calls[key]
        print "0", instructions[key], sum_least[key], sum_most[key], least_one[key], most_one[key]
    }
    if (call == "") fail("no exported call is in the trace")
}
