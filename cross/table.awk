# The table of processors, from FOLDER/NAME/size of each, which has the octets of code and then of the deepest stack, and,
# where it was tried, FOLDER/NAME/answers ("N lists, N answers, N differences"); the example firmware then printed what it
# has to.

function name_in(path,    part, count) {
    count = split(path, part, "/")
    return part[count - 1]
}

FNR == 1 { name = name_in(FILENAME) }
FILENAME ~ /\/size$/ && FNR == 1 {
    order[++processors] = name
    code[name] = $1
}
FILENAME ~ /\/size$/ && FNR == 2 { stack[name] = $1 }
FILENAME ~ /\/answers$/ {
    tried[name] = sprintf("  as expected %6s %8s %12s", $1, $3, $5)
    tries++
}

END {
    printf "  %-14s %8s %8s%s\n", "processor", "code", "stack", \
        (tries > 0 ? "  example      lists  answers  differences" : "")
    for (i = 1; i <= processors; i++)
        printf "  %-14s %8s %8s%s\n", order[i], code[order[i]], stack[order[i]], tried[order[i]]
}
