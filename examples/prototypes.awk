# The exported calls of files, one C prototype on a line: of a C header as they stand, of a Rattle file as C sees them.
# A slice is a pointer and a length.

function c_type(type) {
    if (type == "i64") return "int64_t"
    if (type ~ /^u(8|16|32)$/) return "uint" substr(type, 2) "_t"
    return "unknown(" type ")"
}

function c_argument(argument,    word) {
    if (argument !~ /:/) return argument
    split(argument, word, ": ")
    if (word[2] == "&mut [u8]") return "uint8_t *" word[1] ", uint64_t " word[1] "_len"
    if (word[2] == "&[u8]") return "const uint8_t *" word[1] ", uint64_t " word[1] "_len"
    return c_type(word[2]) " " word[1]
}

function c_arguments(list,    arguments, n, i, all, one) {
    n = split(list, arguments, ",")
    for (i = 1; i <= n; i++) {
        one = arguments[i]
        gsub(/^ +| +$/, "", one)
        if (one != "") all = all (all == "" ? "" : ", ") c_argument(one)
    }
    return all
}

function print_prototype(type, text,    open, close_at) {
    open = index(text, "(")
    close_at = index(text, ")")
    print type " " substr(text, 1, open - 1) "(" c_arguments(substr(text, open + 1, close_at - open - 1)) ")"
}

{
    sub(/\/\/.*/, "")
    file = file " " $0
}

END {
    gsub(/[ \t]+/, " ", file)
    while (match(file, /\/\*([^*]|\*[^\/])*\*\//)) file = substr(file, 1, RSTART - 1) substr(file, RSTART + RLENGTH)
    while (match(file, /(int64_t|fn) (dp|lent)_[a-z_]+\([^)]*\)( -> [a-z0-9]+)?/)) {
        text = substr(file, RSTART, RLENGTH)
        file = substr(file, RSTART + RLENGTH)
        if (text ~ /^fn /) {
            type = text
            sub(/.* -> /, "", type)
            print_prototype(c_type(type), substr(text, 4))
        } else {
            print_prototype("int64_t", substr(text, 9))
        }
    }
}
