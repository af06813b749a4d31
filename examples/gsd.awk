# Holds a GSD file to the numbers that the example starts with, and to what the station can do.
#
#   awk -f examples/gsd.awk examples/card.h examples/card.gsd
#
# From the header it takes the constants CARD_NAME = NUMBER and the octets of CARD_MODULES, from the GSD file its
# keywords (small and capital letters are the same there) and its one module. Each thing that is wrong is told in a line
# of its own, with the file and, where there is one, the line. Exit 0: nothing is wrong; 1: something is, or a file
# cannot be read. examples/try-wrong-gsd tries it.

function tell(text) {
    print text >"/dev/stderr"
    wrong = 1
}

function stop(text) {
    tell(text)
    exit 1
}

function trimmed(text) {
    gsub(/^[ \t]+|[ \t\r]+$/, "", text)
    return text
}

# The next line of a file, in `line`, and its number in `at`; 0 behind the last.
function has_line(file,    status) {
    status = (getline line <file)
    if (status < 0) stop(file ": cannot be read")
    at = status > 0 ? at + 1 : 0
    return status
}

# Decimal, or hexadecimal behind 0x; -1 for anything else.
function number(text,    value, i) {
    text = tolower(text)
    if (text ~ /^[0-9]+$/) return text + 0
    if (text !~ /^0x[0-9a-f]+$/) return -1
    for (i = 3; i <= length(text); i++) value = 16 * value + index("0123456789abcdef", substr(text, i, 1)) - 1
    return value
}

# Octets with commas between them, each as two digits, blanks between.
function octets(text, place,    part, count, i, all) {
    count = split(text, part, ",")
    for (i = 1; i <= count; i++) {
        part[i] = trimmed(part[i])
        if (number(part[i]) < 0 || number(part[i]) > 255) stop(place ": here is no octet: '" part[i] "'")
        all = all (i > 1 ? " " : "") sprintf("%02X", number(part[i]))
    }
    return all
}

# ---- The header ----

function read_header(    word) {
    while (has_line(header)) {
        if (sub(/^#define CARD_MODULES /, "", line)) modules = octets(line, header ":" at)
        while (match(line, /CARD_[A-Z]+ = [0-9A-Za-z]+/)) {
            split(substr(line, RSTART, RLENGTH), word, " = ")
            constants[word[1]] = word[2]
            line = substr(line, RSTART + RLENGTH)
        }
    }
    if (modules == "") stop(header ": the line #define CARD_MODULES is missing")
}

function constant(name) {
    if (number(constants[name]) < 0) stop(header ": " name " = NUMBER is missing")
    return number(constants[name])
}

function as_in_header(name) {
    return "but " name " is " constants[name] " in " header
}

# ---- The GSD file ----

# A comment begins with ; but not inside quotes.
function without_comment(text) {
    match(text, /^([^";]|"[^"]*")*/)
    return trimmed(substr(text, 1, RLENGTH))
}

function read_keyword(text,    equals, keyword) {
    equals = index(text "=", "=")
    keyword = tolower(trimmed(substr(text, 1, equals - 1)))
    if (keyword in values) tell(gsd ":" at ": stands here a second time: " text)
    values[keyword] = trimmed(substr(text, equals + 1))
    places[keyword] = gsd ":" at
}

function read_gsd(    text) {
    if (!has_line(gsd) || tolower(trimmed(line)) != "#profibus_dp") stop(gsd ": does not begin with #Profibus_DP")
    while (has_line(gsd)) {
        text = without_comment(line)
        if (text ~ /^[^"=]+=/ || tolower(text) == "endmodule") read_keyword(text)
        else if (text != "") tell(gsd ":" at ": is neither KEYWORD = VALUE nor EndModule: " text)
    }
}

# Whether a keyword is there; it is told if not.
function has(keyword) {
    if (tolower(keyword) in values) return 1
    tell(gsd ": the keyword " keyword " is missing")
    return 0
}

# ---- What has to be the same ----

function expect(keyword, expected, but,    key) {
    key = tolower(keyword)
    if (has(keyword) && number(values[key]) != expected) tell(places[key] ": " keyword " is " values[key] ", " but)
}

function from_header(keyword, name) {
    expect(keyword, constant(name), as_in_header(name))
}

function free_values(    keyword, count, i) {
    count = split("GSD_Revision Vendor_Name Model_Name Revision Hardware_Release Software_Release " \
        "Implementation_Type Redundancy Repeater_Ctrl_Sig 24V_Pins Min_Slave_Intervall Slave_Family", keyword, " ")
    for (i = 1; i <= count; i++) has(keyword[i])
}

function abilities() {
    expect("Protocol_Ident", 0, "but the station speaks PROFIBUS DP (0)")
    expect("Station_Type", 0, "but the station is a slave (0)")
    expect("FMS_supp", 0, "but the station has no FMS (0)")
    expect("Sync_Mode_supp", 1, "but the station has sync (1)")
    expect("Freeze_Mode_supp", 1, "but the station has freeze (1)")
    expect("Auto_Baud_supp", 0, "but the station searches no baud rate (0)")
    expect("Set_Slave_Add_supp", 0, "but the station takes no address from the bus (0)")
    expect("Fail_Safe", 0, "but a Data_Exchange without outputs is a fault (0)")
    expect("Modular_Station", 0, "but the example has one module (0)")
}

# Each rate that is supported has its time.
function rates(    keyword, supported) {
    for (keyword in values) {
        if (keyword !~ /^[0-9.]+m?_supp$/ || number(values[keyword]) == 0) continue
        supported = 1
        has("MaxTsdr_" toupper(substr(keyword, 1, index(keyword, "_") - 1)))
    }
    if (!supported) tell(gsd ": no baud rate is supported")
}

# The standard's seven octets of Set_Prm are no user parameters. The first one that is, octet 7, has the watchdog's
# base: a parameter of the program's own there would switch that by its bit 2.
function user_parameters(    len, but, place, part, count) {
    len = constant("CARD_PARAMETERS") - 7
    but = as_in_header("CARD_PARAMETERS") ", and seven of these are the standard's"
    expect("User_Prm_Data_Len", len, but)
    if (!has("User_Prm_Data")) return
    place = places["user_prm_data"]
    count = split(octets(values["user_prm_data"], place), part, " ")
    if (count != len) tell(place ": User_Prm_Data has " count " octets, " but)
    if (part[1] !~ /^0[04]$/)
        tell(place ": User_Prm_Data begins with " part[1] ", but octet 7 is the watchdog's base, 00 or 04")
}

# An identifier octet: its low four bits are a length less 1, bit 4 says inputs, 5 outputs, 6 words instead of octets.
function add_lengths(octet, place,    len) {
    len = (octet % 16 + 1) * (int(octet / 64) % 2 + 1)
    if (int(octet / 16) % 4 == 0) stop(place ": the module is of the special format, which is not known here")
    if (int(octet / 16) % 2 == 1) lengths["inputs"] += len
    if (int(octet / 32) % 2 == 1) lengths["outputs"] += len
}

function module_has(what, name, place) {
    if (lengths[what] + 0 != constant(name))
        tell(place ": the module has " lengths[what] + 0 " octets of " what ", " as_in_header(name))
}

function module(    place, text, found, part, count, i) {
    if (!has("Module") || !has("EndModule")) return
    place = places["module"]
    text = values["module"]
    if (!sub(/^"[^"]*"/, "", text)) stop(place ": the module has no name in quotes")
    found = octets(text, place)
    if (found != modules) tell(place ": the module is " found ", but CARD_MODULES is " modules " in " header)
    count = split(found, part, " ")
    for (i = 1; i <= count; i++) add_lengths(number("0x" part[i]), place)
    module_has("inputs", "CARD_INPUTS", place)
    module_has("outputs", "CARD_OUTPUTS", place)
}

BEGIN {
    if (ARGC != 3) stop("usage: awk -f examples/gsd.awk HEADER GSD")
    header = ARGV[1]
    gsd = ARGV[2]
    read_header()
    read_gsd()
    free_values()
    from_header("Ident_Number", "CARD_IDENT")
    abilities()
    rates()
    user_parameters()
    from_header("Max_Diag_Data_Len", "CARD_DIAGNOSIS")
    module()
    exit wrong
}
