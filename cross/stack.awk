# How much stack each exported call of an object can need: by the frame of each function, as the compiler tells it, and by
# who calls whom, as the object's relocations tell it. Every function has a section of its own, so that each call of
# another one has a relocation; widths.awk has seen to it that all are called by their names, and none by itself.
#
#   readelf -rW FILE.o | awk -v call=OCTETS -v below=OCTETS -f stack.awk FILE.su -
#
# call: what the processor puts on the stack at a call by itself; below: what a function may use below its stack pointer.
# Functions of other libraries are not counted, nor are arguments that are pushed for a single call (x86-64 alone does).

function fail(what) {
    print "stack.awk: " what >"/dev/stderr"
    failed = 1
    exit 1
}

function depth_below(name,    callees, i, deepest, depth) {
    if (name in depth_of) return depth_of[name]
    split(calls[name], callees, " ")
    for (i in callees) {
        depth = call + depth_below(callees[i])
        if (depth > deepest) deepest = depth
    }
    return depth_of[name] = frame[name] + deepest
}

NR == FNR {
    if ($0 !~ /\tstatic$/) fail("a frame of no fixed size: " $0)
    sub(/^[^:]*:/, "", $1)
    frame[$1] = $2
    next
}
/^Relocation section/ {
    caller = $3
    is_code = sub(/^'[.]rela?[.]text[.]/, "", caller)
    sub(/'$/, "", caller)
    if (is_code && !(caller in frame)) fail("no frame is known of " caller)
}
# Any mention of another function counts as a call of it. Of itself a function has the places in a table of jumps.
is_code && $5 != "" {
    callee = $5
    sub(/^[.]text[.]/, "", callee)
    if (callee in frame && callee != caller) calls[caller] = calls[caller] " " callee
}

END {
    if (failed) exit 1
    for (name in frame) {
        if (name !~ /^dp_/) continue
        print call + depth_below(name) + below, name
        exported++
    }
    if (exported == 0) fail("no exported call has a frame")
}
