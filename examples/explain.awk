# Lays a script's comments beside its trace, and says in words what a line of the trace means.
# usage: ./run otreplay <SCRIPT | awk -f examples/explain.awk docs/registers.csv SCRIPT -
# A comment is printed before the first line of the trace that is as late as it. A script with `fresh tcp` is one of a TCP box from its beginning.
# What a value is depends on its id: docs/registers.csv has each id's kind and name. No unit is said: a real may be degrees, bar or percent.

BEGIN {
    split("READ-DATA WRITE-DATA INVALID-DATA reserved READ-ACK WRITE-ACK DATA-INVALID UNKNOWN-DATAID", types, " ")
    exception["01"] = "no such function"
    exception["02"] = "no such register, or the boiler doesn't know this id"
    exception["03"] = "a count, length or message that isn't served"
    exception["04"] = "the boiler has no valid value"
    at_once["04"] = "no status of the thermostat's has gone out yet"
    exception["06"] = "busy, another order is under way"
    exception["0B"] = "no answer from the boiler"
    refusal[5] = "damaged: odd parity"
    refusal[6] = "a type that doesn't come from this side"
    refusal[7] = "nobody asked, or out of time"
    refusal[8] = "no answer to this question"
    refusal[9] = "no such line"
    refusal[11] = "silence: a message's length"
    refusal[12] = "silence: a message's checksum"
    refusal[13] = "silence: another unit's message"
    refusal[14] = "silence: a function of 80 or more"
    refusal[15] = "too small a room for a reply"
    refusal[16] = "damaged: a spare bit is set"
    refusal[17] = "silence: a message's protocol"
    refusal[18] = "silence: a message's length field"
}

function number(hex, n, i) {
    n = 0
    for (i = 1; i <= length(hex); i++) n = n * 16 + index("0123456789ABCDEF", substr(hex, i, 1)) - 1
    return n
}

function signed(n, half) { return n < half ? n : n - 2 * half }

# A value's number or two, by its id's kind: four hex digits as they are, if the id isn't listed.
function typed(id, hex, v) {
    v = number(hex)
    if (kind[id] == "real") return sprintf("%.11g", signed(v, 32768) / 256)
    if (kind[id] == "s16") return signed(v, 32768)
    if (kind[id] == "u16") return v
    if (kind[id] == "pair") return int(v / 256) " and " v % 256
    if (kind[id] == "spair") return signed(int(v / 256), 128) " and " signed(v % 256, 128)
    return hex
}

function value(id, hex) { return (id in name ? name[id] : "id " id) " = " typed(id, hex) }

function type_of(word) { return types[number(substr(word, 1, 1)) % 8 + 1] }

function id_of(word) { return number(substr(word, 3, 2)) }

# A boiler's answer has a value only where it acknowledges.
function answer(type, id, hex) { return type ~ /-ACK$/ ? value(id, hex) : type " " id }

# In ids 0 and 70 the high byte of a READ-DATA is the master's own status.
function question(word, id) {
    id = id_of(word)
    return type_of(word) " " id (type_of(word) == "READ-DATA" && (id == 0 || id == 70) ? ", status " substr(word, 5, 2) : "")
}

# An exception may mean something else at once than as an outcome.
function excepted(code, outcome) { return "exception " code ": " (!outcome && code in at_once ? at_once[code] : exception[code]) }

# A reply says no id, but for 06, 10 and 41: it is that of the question which went out last on its line.
function reply(bytes, outcome, unit, code, id) {
    unit = number(substr(bytes, 1, 2))
    code = substr(bytes, 3, 2)
    id = id_of(asked[unit])
    if (number(code) >= 128) return excepted(substr(bytes, 5, 2), outcome)
    if (unit == 5) return "version " number(substr(bytes, 7, 2)) "." number(substr(bytes, 9, 2))
    if (code == "06") return "written, and the boiler says " value(id, substr(bytes, 9, 4))
    if (code == "41") return answer(types[number(substr(bytes, 15, 1)) + 1], id, substr(bytes, 9, 4))
    if (type_of(asked[unit]) == "INVALID-DATA") return "DATA-INVALID " id
    if (code == "10" || substr(bytes, 5, 2) == "00") return "written"
    return value(id, substr(bytes, 7, 4))
}

function replied(body, outcome) {
    return (tcp ? "transaction " substr($3, 1, 4) ", " : "") "unit " number(substr(body, 1, 2)) ": " reply(body, outcome)
}

# How straight the edges of a frame were, where it was read from samples.
function straight() { return NF > 5 ? "; its edges " $5 " to " $6 " samples apart" : "" }

function meaning() {
    if ($1 == "-") return "this line of the script is wrong"
    if ($2 == "sent") return "to boiler " $3 ": " question($4) straight()
    if ($2 == "passed") return "boiler " $3 "'s answer goes on to the thermostat: " answer(type_of($4), id_of($4), substr($4, 5, 4)) straight()
    if ($2 == "accepted") return "the question for unit " $3 " is taken"
    if ($2 == "held") return "the thermostat's frame waits for its turn"
    if ($2 == "dropped") return "nobody wants this answer any more"
    if ($2 == "reply") return replied(tcp ? substr($3, 13) : $3, $4 == "wait") ($4 == "wait" ? ", after " $5 " ms" : "")
    if ($2 == "refused") return refusal[$3]
    return ""
}

{ file = FILENAME == ARGV[1] ? 1 : FILENAME == ARGV[2] ? 2 : 3 }
file == 1 {
    split($0, field, ",")
    kind[field[1]] = field[3]
    for (i = 1; i <= 6; i++) sub(/^[^,]*,/, "") # the name comes last, and may have commas
    gsub(/"/, "")
    name[field[1]] = $0
    next
}
file == 2 && /^#/ { at[++comments] = time; text[comments] = $0 }
file == 2 && /^tick / { time += $2 }
file == 2 && /^fresh tcp$/ { tcp = 1 }
file == 2 { next }
$2 == "sent" { asked[$3] = $4 }
{
    while (shown < comments && at[shown + 1] <= $1 + 0) {
        shown++
        if (shown == 1 || at[shown] != at[shown - 1]) print ""
        print text[shown]
    }
    printf tcp ? "%8s  %-41s %s\n" : "%8s  %-36s %s\n", $1, substr($0, length($1) + 2), meaning()
}
END { while (shown < comments) print text[++shown] }
