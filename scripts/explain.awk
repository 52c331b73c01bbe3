# ./gateday --explain: the load of a ratio file, where there is one; each call line in words, with its answer; then each group's row of the listing,
# with its room.
# Standard input: the call lines, made visible by cat -v. Environment: ANSWERS, the file of what gateday printed; ROOMS, of what readlisting
# printed for the listing in it; OPEN_LINE, the number of the last line where it has no line feed, else 0; TABLE, the file of the ratio file's first
# 100 bytes, made visible, or nothing where none was loaded; TABLE_BYTES, how many it has, 101 for all above 100; OPEN_RATIO as OPEN_LINE.
# Which line is malformed, which call is refused and how much room is left is for the programs to say, which are proved: nothing is decided
# here. Numbers stay text: awk's are doubles, exact to 2^53 only, and money goes beyond.

BEGIN {
    FS = "\n" # lines are cut by column, never into fields
    SHOWN = 200 # the longest line that is shown whole; a call line has 38 bytes
    answers = ENVIRON["ANSWERS"]
    rooms = ENVIRON["ROOMS"]
    open_line = ENVIRON["OPEN_LINE"]
    table = ENVIRON["TABLE"]
    table_bytes = ENVIRON["TABLE_BYTES"] + 0
    open_ratio = ENVIRON["OPEN_RATIO"]
    name_calls()
    name_refusals()
    if (table != "") explain_load()
}

# "The eleven calls", with the names of docs/FORMATS.md; "Kinds" (Orders); the classes (Money and names).
function name_calls() {
    call["1"] = "enrol group"
    call["2"] = "attach unit"
    call["3"] = "detach unit"
    call["4"] = "regular declaration"
    call["5"] = "emergency raise"
    call["6"] = "withdraw emergency"
    call["7"] = "own quota"
    call["8"] = "order"
    call["9"] = "fill"
    call["10"] = "cancel"
    call["11"] = "close"
    kind["1"] = "limit buy"
    kind["2"] = "market buy"
    kind["3"] = "repo lending"
    kind["4"] = "limit sell"
    kind["5"] = "market sell"
    kind["6"] = "repo borrowing"
    class["1"] = "member proprietary"
    class["2"] = "member brokerage, not controlled"
    class["3"] = "member asset management"
    class["4"] = "institution business"
    flag["0"] = "not above the threshold"
    flag["1"] = "above the threshold"
}

# "Refusal list", in the words of docs/FORMATS.md, to which tests/wrapper holds them.
function name_refusals() {
    refusal["1"] = "the host's memory: N, a figure out of its range, a total that would leave 0 to L; a row that would break its rules"
    refusal["2"] = "a field outside its range or its kind's price rule; emergency quota 0; flag above 1"
    refusal["3"] = "enrolling class 2"
    refusal["4"] = "group already enrolled, unit already attached"
    refusal["5"] = "64 groups or 256 units already"
    refusal["6"] = "group not enrolled, unit not attached"
    refusal["7"] = "class 1 and the declarer isn't the code"
    refusal["8"] = "quota doesn't follow from the base"
    refusal["9"] = "nothing to withdraw, or withdrawal already filed"
    refusal["10"] = "new declarer while eight stand"
    refusal["11"] = "emergency held by another declarer, no withdrawal filed"
    refusal["12"] = "emergency quota not above the maximum in force"
    refusal["13"] = "flag disagrees with the threshold of 100,000 millions"
    refusal["14"] = "own quota above the maximum"
    refusal["15"] = "maximum is none"
    refusal["16"] = "buy with net at or above the own quota"
    refusal["17"] = "N orders accepted since the close"
    refusal["18"] = "order number not given since the close"
    refusal["19"] = "quantity above the open quantity; cancel with none open"
    refusal["20"] = "fill price worse than the order's"
    refusal["21"] = "text not of the stated form"
    refusal["23"] = "ratio file not of its form, or a group already enrolled"
}

# ---- small things

# The columns from..from + width - 1, as a number's digits without the blanks before them.
function column(text, from, width) {
    text = substr(text, from, width)
    gsub(/ /, "", text)
    return text
}

# A name in parentheses behind its number. No `in` with a default: naming an element would make it.
function named_class(n) { return n " (" ((n in class) ? class[n] : "no such class") ")" }
function named_flag(n) { return n " (" ((n in flag) ? flag[n] : "no such flag") ")" }
function named_kind(n) { return (n in kind) ? kind[n] : "kind " n " (no such kind)" }
function millions(n) { return (n == "-") ? "none" : n " million yuan" }
function mils(n) { return n " mils" }

function shown(text) {
    if (length(text) <= SHOWN) return "\"" text "\""
    return "\"" substr(text, 1, SHOWN) "\" and " (length(text) - SHOWN) " characters more"
}

function stop(why) {
    print "gateday --explain: " why | "cat 1>&2"
    close("cat 1>&2")
    stopped = 1
    exit 1
}

# ---- the ratio file

# Its lines as they read, then the answer. 0 and 2 are answered to a file of its form alone ("2 where the file is formed .."), so its columns are numbers.
function explain_load(answer, number, line, n) {
    if ((getline answer < answers) < 1 || length(answer) != 9) stop("gateday gave no answer to the load")
    number = column(answer, 1, 3)
    for (n = 1; (getline line < table) > 0; n++) {
        print "ratio file, line " n ": \"" line "\""
        if (number == "0" || number == "2")
            print "    class " named_class(column(line, 1, 2)) ", numerator " column(line, 3, 4) ", denominator " column(line, 7, 4)
        else if (table_bytes <= 100 && n == open_ratio) print "    no line feed at its end"
    }
    if (table_bytes > 100) print "    only its first 100 bytes are shown"
    print "load of the ratio file, " ((table_bytes > 100) ? "more than 100" : table_bytes) " bytes"
    print "    answer \"" answer "\": " outcome(number, column(answer, 4, 6), "")
    print ""
}

# ---- the lines

# The fields of a call that is well formed, in words: code, then four fields as text.
function fields(code, a, b, c, d) {
    if (code == "1") return "institution code " a ", class " named_class(b)
    if (code == "2") return "unit " a ", group " b
    if (code == "3") return "unit " a
    if (code == "4") return "declarer " a ", group " b ", asset base " millions(c) ", quota " millions(d)
    if (code == "5") return "declarer " a ", group " b ", quota " millions(c) ", flag " named_flag(d)
    if (code == "6") return "declarer " a ", group " b
    if (code == "7") return "group " a ", quota " millions(b)
    if (code == "8") return "unit " a ", " named_kind(b) ", price " mils(c) ", quantity " d
    if (code == "9") return "order " a ", price " mils(b) ", quantity " c
    return "order " a
}

function meaning(line, code) {
    code = column(line, 1, 2)
    if (code == "11") return call[code]
    return call[code] ": " fields(code, column(line, 3, 9), column(line, 12, 9), column(line, 21, 9), column(line, 30, 9))
}

# What the answer says. `code` is the call's: calls 1 and 8 are given a number.
function outcome(number, given, code) {
    if (number != "0") return "refused, " number ": " ((number in refusal) ? refusal[number] : "unknown refusal")
    if (code == "1") return "accepted, group " given
    if (code == "8") return "accepted, order " given
    return "accepted"
}

{
    if ((getline answer < answers) < 1 || length(answer) != 9) stop("gateday gave no answer to line " NR)
    number = column(answer, 1, 3)
    print "line " NR ": " shown($0)
    if (number != "21") print "    " meaning($0)
    else if (NR == open_line) print "    malformed line: no line feed at its end"
    else print "    malformed line"
    print "    answer \"" answer "\": " outcome(number, column(answer, 4, 6), column($0, 1, 2))
}

# ---- the listing

# What the room says: "A buy is accepted only if net, before it, is below the own quota" (Orders), that is, while the room is 1 or more.
function verdict(room) {
    if (room == "-") return "none: no buy passes, since there is no maximum"
    if (room == "0" || substr(room, 1, 1) == "-") return mils(room) ": no buy passes"
    return mils(room) ": buys pass"
}

function show_group(group, row, room) {
    print "group " group ": \"" row "\""
    print "    institution code  " column(row, 1, 5)
    print "    class             " named_class(column(row, 6, 2))
    print "    maximum           " millions(column(row, 8, 8))
    print "    own quota         " millions(column(row, 16, 8))
    print "    net               " mils(column(row, 24, 21))
    print "    open buys         " mils(column(row, 45, 21))
    print "    money bought      " mils(column(row, 66, 21))
    print "    money sold        " mils(column(row, 87, 21))
    print "    room              " verdict(column(room, 8, 21))
}

END {
    if (stopped) exit 1
    if (NR > 0) print ""
    print "listing:"
    for (group = 0; (getline row < answers) > 0; group++) {
        if ((getline room < rooms) < 1 || length(room) != 28 || substr(room, 1, 7) != substr(row, 1, 7)) stop("readlisting gave no room for group " group)
        show_group(group, row, room)
    }
    if (group == 0) print "no group is enrolled"
}
