# From valgrind's callgrind file of bench.c: for each exported call and the place that it came from, how often it was
# called and how many instructions it took on average, the functions below it included. A file of cross/trace.awk may
# have cycles, which then stand there: the least and the most of any call of a row, and for a row of several kinds of
# calls on average.
#
# Further files, each behind a word that says what it is:
#   kind=lent      that of lent.c: how many instructions the same octet or Tick takes on the lent state
#   kind=before    that of bench.c with the library of another version: its instructions stand beside
#   kind=points    what the program lookups writes: a table of the service points
#
# In a file a function has a number and, where it is first named, its name; a call is three lines: cfn= (which),
# calls= (how often), and then where, the instructions, and the cycles if there are, as cross/trace.awk says.

function name_of(text,    number) {
    number = text
    sub(/\).*/, ")", number)
    if (index(text, " ") > 0) names[number] = substr(text, index(text, " ") + 1)
    return names[number]
}

function mean(cost, calls) {
    return calls > 0 ? sprintf("%.1f", cost / calls) : "-"
}

# The calls of the other version lie under their keys with this mark.
function of_before(key) {
    return "before " key
}

function mean_before(key) {
    return mean(cost[of_before(key)], calls[of_before(key)])
}

# Two runs of the bench loop, each made once in a cycle, that differ in some calls alone. lent.c makes the exported calls
# at the same place, so they say how many these are.
function on_lent_state(call, without, with,    a, b) {
    if (!("lent" in seen)) return ""
    if (with == "") return "-"
    a = "lent " without
    b = "lent " with
    if (calls["lent_exchange", a] == 0 || calls["lent_exchange", a] != calls["lent_exchange", b]) {
        print "instructions.awk: the runs " without " and " with " of lent.c cannot be compared" >"/dev/stderr"
        exit 1
    }
    return mean(cost["lent_exchange", b] - cost["lent_exchange", a], calls[call, b] - calls[call, a])
}

# A sum of several kinds of calls has no least and most of a single one.
function cycles(key) {
    if (key in most_one) return least_one[key] " to " most_one[key]
    return sprintf("%.0f to %.0f", least[key] / calls[key], most[key] / calls[key])
}

function columns(call, text, calls, instructions, before, beside) {
    printf "  %-24s %-30s %8s %14s", call, text, calls, instructions
    if ("before" in seen) printf " %14s", before
    printf " %14s\n", beside
}

# A row for the calls of a key, a call and a place; without, with: the places in lent.c of two runs, none for a call that
# has no form on the lent state.
function key_row(call, key, text, without, with) {
    if (calls[key] > 0)
        columns(call, text, calls[key], mean(cost[key], calls[key]), mean_before(key), \
            (has_cycles ? cycles(key) : on_lent_state(call, without, with)))
}

function add(key, to) {
    calls[to] += calls[key]
    cost[to] += cost[key]
    least[to] += least[key]
    most[to] += most[key]
}

function place_row(call, place, text, without, with,    key, all) {
    key = call SUBSEP place
    all = call SUBSEP "all"
    key_row(call, key, text, without, with)
    add(key, all)
    add(key, "all")
    add(of_before(key), of_before(all))
    add(of_before(key), of_before("all"))
}

function all_row(call, without, with) {
    key_row(call, call SUBSEP "all", "all of the workload", without, with)
}

# The rows of a station with channels.
function channel_rows(name, text) {
    place_row("dp_octet", "data_octet_with_" name, text ": data")
    place_row("dp_tick", "tick_with_" name, text)
    place_row("dp_take_outputs", "take_with_" name, text)
    place_row("dp_read", "read_with_" name, text)
}

# The row of a service point: at how many entries of the table its lookup looks, and the last octet of a telegram to it.
function point_row(dsap, place,    key) {
    key = "dp_octet" SUBSEP place
    printf "  %4d  %-16s %12d %14s", dsap, service[dsap], looked_at[dsap], mean(cost[key], calls[key])
    if ("before" in seen) printf " %14s", mean_before(key)
    print ""
}

function points() {
    print "  telegrams to the service points, the entries that each lookup looks at, and the last octet's instructions:"
    printf "  %4s  %-16s %12s %14s", "DSAP", "found", "looked at", "instructions"
    if ("before" in seen) printf " %14s", "before"
    print ""
    point_row(56, "last_octet_of_read_inputs")
    point_row(57, "last_octet_of_read_outputs")
    point_row(58, "last_octet_to_58")
    point_row(59, "last_octet_of_get_cfg")
    point_row(60, "last_octet_of_slave_diag")
    point_row(61, "last_octet_of_set_prm")
    point_row(62, "last_octet_of_chk_cfg")
    point_row(63, "last_octet_to_63")
}

# The numbers begin anew in each file, and every program goes through the places of the workload.
FNR == 1 {
    split("", names)
    seen[kind]
}
kind == "points" {
    service[$1] = $2
    looked_at[$1] = $3
    next
}
/^events:/ { has_cycles = / cycles$/ }
/^fn=/ { place = (kind == "lent" ? "lent " : "") name_of(substr($0, 4)) }
/^cfn=/ { call = (kind == "before" ? of_before("") : "") name_of(substr($0, 5)) }
/^calls=/ {
    split(substr($0, 7), word, " ")
    getline
    calls[call, place] += word[1]
    cost[call, place] += $2
    least[call, place] += $3
    most[call, place] += $4
    if (has_cycles) {
        least_one[call, place] = $5
        most_one[call, place] = $6
    }
}

END {
    columns("call", "where", "calls", "instructions", "before", \
        (has_cycles ? "cycles" : ("lent" in seen ? "lent state" : "")))
    # Every run has its two gaps: no difference shows one.
    place_row("dp_gap", "gap_before_telegram", "before a telegram")
    place_row("dp_octet", "first_octet", "first octet", "no_octets", "up_to_first_octet")
    place_row("dp_octet", "header_octet", "header, inner", "up_to_first_octet", "up_to_header")
    place_row("dp_octet", "inner_data_octet", "data, inner", "up_to_header", "up_to_data")
    place_row("dp_octet", "check_octet", "check octet, inner", "up_to_data", "up_to_check_octet")
    place_row("dp_octet", "last_octet", "last octet, draws the reply", "up_to_check_octet", "up_to_last_octet")
    all_row("dp_octet", "no_octets", "up_to_last_octet")
    place_row("dp_send", "send_data_octet", "data")
    place_row("dp_send", "send_around_data", "before and behind the data")
    place_row("dp_send", "send_nothing_left", "nothing left")
    all_row("dp_send")
    place_row("dp_tick", "tick_in_exchange", "watchdog on", "no_octets", "no_octets_but_ticks")
    place_row("dp_take_outputs", "vat_takes", "new outputs")
    place_row("dp_read", "vat_reads", "outputs")
    place_row("dp_write", "vat_writes", "inputs")
    place_row("dp_hand_over_inputs", "vat_hands_over", "")
    calls["all"] = calls["dp_tick", "tick_in_exchange"]
    calls[of_before("all")] = calls[of_before("dp_tick"), "tick_in_exchange"]
    key_row("a whole cycle", "all", "all of these")
    print "  beside the workload:"
    place_row("dp_octet", "last_octet_to_another", "last, to another station")
    place_row("dp_octet", "last_octet_of_slave_diag", "last, Slave_Diag")
    place_row("dp_octet", "last_octet_of_set_prm", "last, Set_Prm")
    place_row("dp_octet", "last_octet_of_chk_cfg", "last, Chk_Cfg")
    place_row("dp_octet", "last_octet_of_get_cfg", "last, Get_Cfg")
    place_row("dp_octet", "last_octet_of_read_inputs", "last, Read_Inputs")
    place_row("dp_octet", "last_octet_of_read_outputs", "last, Read_Outputs")
    place_row("dp_octet", "last_octet_to_58", "last, to 58, draws RS")
    place_row("dp_octet", "last_octet_to_63", "last, to 63, draws RS")
    place_row("dp_octet", "last_octet_in_sync", "last, Data_Exchange in sync")
    place_row("dp_octet", "last_octet_of_sync", "last, sync publishes outputs")
    place_row("dp_octet", "last_octet_of_repeated_exchange", "last, repeated Data_Exchange")
    place_row("dp_octet", "last_octet_of_repeated_set_prm", "last, repeated Set_Prm")
    place_row("dp_start", "station_starts", "")
    place_row("dp_judge_parameters", "vat_judges", "good")
    place_row("dp_judge_parameters", "vat_judges_bad", "bad")
    place_row("dp_judge_configuration", "vat_judges", "good")
    place_row("dp_events", "vat_looks_at_events", "")
    place_row("dp_pending", "vat_looks_at_events", "")
    place_row("dp_acknowledge", "vat_looks_at_events", "")
    place_row("dp_new_diagnosis", "vat_has_diagnosis", "")
    place_row("dp_leave_master", "vat_leaves", "in the exchange")
    place_row("dp_tick", "tick_expires", "the watchdog expires")
    place_row("dp_send", "send_while_put_off", "Leave master is put off")
    place_row("dp_send", "last_send_leaves", "last, Leave master put off")
    place_row("dp_tick", "tick_leaves", "Leave master was put off")
    place_row("dp_gap", "gap_leaves", "Leave master was put off")
    place_row("dp_window_read", "window_reads_events", "02H, events")
    place_row("dp_window_read", "window_reads_events_in_motorola_order", "02H in Motorola order, events")
    place_row("dp_window_read", "window_hands_over", "09H, hands over inputs")
    place_row("dp_window_read", "window_takes", "0BH, new outputs")
    place_row("dp_window_read", "window_gives_diagnosis", "0DH, new diagnosis")
    place_row("dp_window_read", "window_judges_parameters", "0EH, parameters good")
    place_row("dp_window_read", "window_judges_parameters_bad", "0FH, parameters bad")
    place_row("dp_window_read", "window_judges_configuration", "10H, configuration good")
    place_row("dp_window_read", "window_judges_configuration_bad", "11H, configuration bad")
    place_row("dp_window_read", "window_reads_nothing", "15H, nothing behind it")
    place_row("dp_window_read", "window_refuses_read", "16H, refused")
    place_row("dp_window_write", "window_acknowledges", "03H, acknowledges")
    place_row("dp_window_write", "window_writes_nothing", "15H, nothing behind it")
    place_row("dp_window_write", "window_refuses_write", "16H, refused")
    place_row("dp_octet", "data_octet_without_inputs", "no inputs: data, inner")
    place_row("dp_octet", "last_octet_without_inputs", "no inputs: last, draws E5")
    place_row("dp_octet", "last_octet_without_inputs_repeated", "no inputs: last, repeated")
    place_row("dp_octet", "last_octet_without_inputs_flagged", "no inputs: last, Diag_Flag")
    place_row("dp_octet", "header_octet_without_outputs", "no outputs: header, inner")
    place_row("dp_octet", "last_octet_without_outputs", "no outputs: last, SD1")
    place_row("dp_send", "send_data_without_outputs", "no outputs: data")
    place_row("dp_take_outputs", "vat_takes_empty_list", "no outputs: the empty list")
    place_row("dp_octet", "data_octet_of_long_outputs", "lengths of 100: data, inner")
    channel_rows("two_channels", "2 channels")
    channel_rows("two_channels_in_little_room", "2 channels, little room")
    channel_rows("sixteen_channels", "16 channels")
    # What the lent state costs once, however many octets follow.
    runs = calls["lent_exchange", "lent no_octets"]
    once = mean(cost["lent_exchange", "lent no_octets"], runs)
    if (runs > 0) columns("lent_exchange", "no octets: load, 2 gaps, save", runs, "-", "-", once)
    if ("points" in seen) points()
}
