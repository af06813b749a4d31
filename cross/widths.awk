# Says whether the module's text means the same with pointers of 32 bits as with pointers of 64.
#
# Every line has to be of a form that is named at the end; any other one is told, and the module is refused. So no pointer
# is made a number, or compared with anything but null, no number is made a pointer, every step in memory counts octets,
# there is no global and no assembly text, and what is called are functions of the module, by their names and with the
# arguments that they are defined for, and three of LLVM's own.
#
# How wide a pointer is could then still be seen where one lies in memory. It may lie in two kinds of places only:
#   a slot     alloca ptr, stored to and loaded from as a pointer, and its address goes nowhere;
#   a slice    16 octets, a pointer and from octet 8 on a length: copied whole, cleared whole, handed over by its address,
#              and never taken for anything else. The place of its length is stored to and loaded from as a number of 64
#              bits.
# With a pointer of 32 bits, octets 4 to 7 of a slice are copied and never looked at. That a step stays inside what was
# lent, so that 32 bits hold it, is proved of the program; where C lends nothing, by a null pointer, an exported function
# steps 4096 octets from it, and no octet is accessed there. How accesses are aligned is not looked at here.
#
# Two numbers that a function gives together lie in memory as the processor lays them out, the second at the multiple of
# its size; cross.mk sees to it that every processor does so for numbers of 64 bits.
#
# Beside that, no function calls itself, also not by way of others: stack.awk relies on it.

function tell(n, what) {
    printf "%s:%d: %s:%s\n", FILENAME, n, what, line[n] >"/dev/stderr"
    complaints++
}

# The variables of a text in their order, each with the function that it is of.
function variables_of(text,    count) {
    split("", variable)
    while (match(text, /%[A-Za-z0-9._]+/)) {
        variable[++count] = within " " substr(text, RSTART, RLENGTH)
        text = substr(text, RSTART + RLENGTH)
    }
    return count + 0
}

# ---- Which variables are slices: those that a pointer is stored to or loaded from, and all that they are copied from
# ---- or to, or handed over to or from

function related(a, b) {
    left[++relations] = a
    right[relations] = b
}

# The arguments of a call, or the parameters of a definition, each with its place; and what it gives and takes, as types,
# since a call has to have those of the definition.
function relate_arguments(text,    callee, argument, count, types, i) {
    callee = name_in(text)
    types = substr(text, 1, RSTART - 2)
    count = split(substr(text, RSTART + RLENGTH), argument, ", ")
    if (text ~ /^define/) within = callee
    match(types, /([{] [^{}]* [}]|[^ ]+)$/)
    types = substr(types, RSTART)
    for (i = 1; i <= count; i++) {
        types = types " " (match(argument[i], /^(ptr|i[0-9]+)/) ? substr(argument[i], 1, RLENGTH) : "")
        if (argument[i] ~ /^ptr / && variables_of(argument[i])) related(variable[1], callee i)
    }
    if (text ~ /^define/) {
        defined[callee] = types
    } else {
        called[NR] = callee types
        callees[within] = callees[within] " " callee
    }
}

# A function's name with the parenthesis behind it.
function name_in(text) {
    match(text, /@("[^"]+"|[A-Za-z0-9_.]+)\(/)
    return substr(text, RSTART, RLENGTH)
}

function relate(text) {
    variables_of(text)
    if (text ~ / = alloca ptr,/) slot[variable[1]] = ++slots
    else if (text ~ /^  store ptr | = load ptr, /) holder[variable[2]] = 1
    else if (text ~ /@llvm[.]memmove.*, i64 16, i1 false/) related(variable[1], variable[2])
    else if (text ~ /call [^@]*@/ && text !~ /@llvm[.]/) relate_arguments(text)
}

function spread_slices(    v, i, changed) {
    for (v in holder)
        if (!(v in slot)) slice[v] = 1
    do {
        changed = 0
        for (i = 1; i <= relations; i++)
            if ((left[i] in slice) != (right[i] in slice)) {
                slice[left[i]] = slice[right[i]] = 1
                changed = 1
            }
    } while (changed)
}

# Before anything is checked, since a function's blocks may stand in any order.
function find_lengths(    n) {
    for (n = 1; n <= NR; n++) {
        if (line[n] ~ /^define/) within = name_in(line[n])
        if (line[n] ~ / = getelementptr / && variables_of(line[n]) && variable[2] in slice) length_of[variable[1]] = 1
    }
}

# ---- What is done with slots, slices and their lengths

function refuse_special(n, from, to, what,    i) {
    for (i = from; i <= to; i++) {
        if (variable[i] in slot) tell(n, "a pointer's slot " what)
        if (variable[i] in slice) tell(n, "a slice " what)
        if (variable[i] in length_of) tell(n, "a slice's length " what)
    }
}

function check(n, text,    count) {
    count = variables_of(text)
    if (text ~ / = alloca /) {
        if (variable[1] in slice && text !~ /alloca \[16 x i8\]/) tell(n, "a slice is not 16 octets long")
    } else if (text ~ /^  store ptr /) {
        refuse_special(n, 1, 1, "has its address kept")
    } else if (text ~ / = load ptr, /) {
        refuse_special(n, 1, 1, "is not a variable of its function")
    } else if (text ~ / = load (i64|[{] .*[}]), /) {
        if (text ~ /[{]/ || !(variable[2] in length_of)) refuse_special(n, 2, 2, "is loaded as a number")
    } else if (text ~ /^  store i64 /) {
        if (!(variable[count] in length_of)) refuse_special(n, 1, count, "is a number or is stored to as one")
    } else if (text ~ / = getelementptr / && variable[2] in slice) {
        if (text !~ /, i64 8$/) tell(n, "a step into a slice, but not to its length")
        if (variable[1] in slice) tell(n, "a slice lies in a slice")
    } else if (text ~ /@llvm[.]memmove/ && text !~ /, i64 16, i1 false/) {
        refuse_special(n, 1, count, "is copied, but not as a whole")
    } else if (text ~ /@llvm[.]memset/ && text !~ /, i64 16, i1 false/) {
        refuse_special(n, 1, count, "is cleared, but not as a whole")
    } else if (text ~ /call [^@]*@/) {
        for (; count > 0; count--)
            if (!(variable[count] in slice)) refuse_special(n, count, count, "is handed over")
    } else {
        refuse_special(n, 1, count, "is used otherwise")
    }
}

# ---- The forms

function is_one_of(forms, count,    i) {
    for (i = 1; i <= count; i++)
        if ($0 ~ forms[i]) return 1
    return 0
}

BEGIN {
    type = "i(1|8|16|32|64)"
    var = "%[A-Za-z0-9._]+"
    pair = "[{] " type ", " type " [}]"
    value = "(" var "|-?[0-9]+|true|false)"
    name = "@(\"[a-z0-9_]+(::[^\" ]+)+\"|dp_[a-z_]+|llvm[.]memmove[.]p0[.]p0[.]i64|llvm[.]cttz[.]" type ")"
    given = "(ptr " var "|" type " " value ")"
    wanted = "(ptr|" type ")( noundef| zeroext)* " var
    aligned = ", ptr " var ", align [0-9]+"
    plain = "([^@{}\"]|\"[^\"]*\")*"

    inner[++inners] = "^  " var " = alloca (ptr|" type "|\\[[0-9]?[0-9]?[0-9]?[0-9] x i8\\]), align [0-9]+$"
    inner[++inners] = "^  " var " = load (ptr|" type "|" pair ")" aligned "(, !range ![0-9]+)?(, !noundef ![0-9]+)?$"
    inner[++inners] = "^  store (ptr " var "|" type " " value ")" aligned "$"
    inner[++inners] = "^  " var " = getelementptr (inbounds )?(nuw )?i8, ptr " var ", i64 " value "$"
    inner[++inners] = "^  " var " = (add|sub|mul|shl)( nuw)?( nsw)? " type " " value ", " value "$"
    inner[++inners] = "^  " var " = (udiv|urem|lshr|and|or|xor) " type " " value ", " value "$"
    inner[++inners] = "^  " var " = icmp (eq|ne|ult|ule|ugt|uge) " type " " value ", " value "$"
    inner[++inners] = "^  " var " = icmp eq ptr " var ", null$"
    inner[++inners] = "^  " var " = extractvalue " pair " " var ", [01]$"
    inner[++inners] = "^  " var " = (zext|trunc|trunc nuw) " type " " value " to " type "$"
    inner[++inners] = "^  call void @llvm[.]memset[.]p0[.]i64\\(ptr " var ", i8 0, i64 [0-9]+, i1 false\\)$"
    inner[++inners] = "^  (" var " = call (" type "|" pair ")|call void) " name "\\((" given "(, " given ")*)?\\)$"
    inner[++inners] = "^  br (label " var "|i1 " value ", label " var ", label " var ")$"
    inner[++inners] = "^  switch " type " " value ", label " var " \\[$"
    inner[++inners] = "^    " type " -?[0-9]+, label " var "$"
    inner[++inners] = "^  (\\]|unreachable|ret void|ret " type " " value "|ret " pair " " var ")$"

    outer[++outers] = "^(}|;.*)?$"
    outer[++outers] = "^[A-Za-z0-9._]+:( +; (preds = .*|No predecessors!))?$"
    outer[++outers] = "^(source_filename|target datalayout|target triple) = \"[^\"]*\"$"
    outer[++outers] = "^define (internal )?(noundef |zeroext )*(void|" type "|" pair ") " name \
        "\\((" wanted "(, " wanted ")*)?\\) #[0-9]+ {$"
    outer[++outers] = "^declare (void|" type ") @llvm[.][a-z0-9.]+\\([a-z0-9 ,()]*\\) #[0-9]+$"
    outer[++outers] = "^attributes #[0-9]+ = { " plain " }$"
    outer[++outers] = "^!(llvm[.]ident|[0-9]+) = !{" plain "}$"
}

{ line[NR] = $0 }
/^define/ { relate_arguments($0) }
/^  / { relate($0) }
!is_one_of(inner, inners) && !is_one_of(outer, outers) { tell(NR, "not a form that is known") }

# An exported function takes its arguments as a C compiler hands them over, so no slice, and no number that either side
# would have to widen for the other.
function check_definition(n,    count) {
    within = name_in(line[n])
    if (line[n] ~ /^define internal /) return
    count = variables_of(line[n])
    refuse_special(n, 1, count, "comes from outside")
    if (line[n] !~ /^define noundef i64 @dp_/ || line[n] ~ / zeroext /)
        tell(n, "an exported function relies on who widens a number")
}

# Whether the calls from a function end; is_open: those on the way to it, ends: those of which it is known.
function check_ends(n, callee,    list, count, i) {
    if (callee in ends) return
    if (callee in is_open) {
        tell(n, "a function comes to call itself")
        return
    }
    is_open[callee] = 1
    count = split(callees[callee], list, " ")
    for (i = 1; i <= count; i++) check_ends(n, list[i])
    delete is_open[callee]
    ends[callee] = 1
}

function check_calls(    n, callee) {
    for (n in called) {
        callee = name_in(called[n])
        if (!(callee in defined)) tell(n, "a function that is not the module's is called")
        else if (called[n] != callee defined[callee]) tell(n, "a call with other types than the function's")
    }
}

END {
    spread_slices()
    find_lengths()
    for (n = 1; n <= NR; n++) {
        if (line[n] ~ /^define/) {
            check_definition(n)
            check_ends(n, within)
        } else if (line[n] ~ /^  /) {
            check(n, line[n])
        }
    }
    check_calls()
    printf "%d lines, %d pointers' slots, %d complaints\n", NR, slots, complaints
    exit NR == 0 || complaints > 0
}
