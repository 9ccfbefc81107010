#!/usr/bin/awk -f
# The columns of a deck that need two finite ends and do not have them, with the lines of the text where they stand.
#
#     awk -f tools/ends.awk DECK
#
# Integer and semicontinuous columns, members of ordered sets, and columns with an arc need a low and a high end. The
# refusal `NotFinite` tells the line of ENDATA alone; this tells the columns. One line for each, in the order of the deck:
#
#     COLUMN: integer at line 9, no high end, bounds at lines 31 32
#
# Status 0: none was found. Status 1: some were listed. The deck is taken as one that breaks no other rule.

# Whether a word is a number.
function is_number(word) {
    return word ~ /^[-+]?([0-9]+\.?[0-9]*|\.[0-9]+)([eE][-+]?[0-9]+)?$/
}

# Adds what a column is, and the line that says so.
function is_now(column, kind) {
    kinds[column] = kinds[column] (kinds[column] == "" ? "" : ", ") kind " at line " NR
}

# Takes a data line of BOUNDS. Words: kind [set] column [value]. A semicontinuous column without a value has no high end.
function take_bound(    kind, valued, named, set, column, value) {
    kind = $1
    valued = kind !~ /^(FR|MI|PL|BV)$/ && (kind != "SC" || is_number($NF))
    named = valued ? NF >= 4 : NF >= 3
    set = named ? $2 : ""
    if (!any_bound) { used_named = named; used_set = set; any_bound = 1 }
    if (named != used_named || set != used_set) return
    column = named ? $3 : $2
    value = valued ? (named ? $4 : $3) : 1e30
    bounds[column] = bounds[column] " " NR
    count[column]++
    if (kind == "FR") { low[column] = "none"; high[column] = "none" }
    if (kind == "MI") { low[column] = "none" }
    if (kind == "PL") { high[column] = "none" }
    if (kind == "FX") { low[column] = value; high[column] = value }
    if (kind == "BV") { low[column] = 0; high[column] = 1 }
    if (kind == "LO" || kind == "LI") { low[column] = value + 0 <= -1e20 ? "none" : value }
    if (kind == "UP" || kind == "UI") {
        if (value + 0 < 0 && !(column in low)) low[column] = "none"
        high[column] = value + 0 >= 1e20 ? "none" : value
    }
    if (kind == "SC") {
        high[column] = value + 0 >= 1e20 ? "none" : value
        if (!(column in semi)) is_now(column, "semicontinuous")
        semi[column] = 1
    }
    if (kind ~ /^(BV|LI|UI)$/ && !(column in integer)) { integer[column] = 1; is_now(column, "integer") }
}

# Takes a data line of COLUMNS.
function take_column() {
    if ($2 == "'MARKER'") { between = $3 == "'INTORG'"; return }
    if ($1 in place) return
    place[$1] = ++columns
    name[columns] = $1
    if (between) { integer[$1] = 1; is_now($1, "integer") }
}

# Takes a data line of SOS: the head of a set or a member.
function take_member() {
    if ($1 == "S1" || $1 == "S2") return
    is_now($1, "member of a set")
}

{ sub(/\r$/, "") }
/^\*/ || NF == 0 { next }
section == "ENDATA" { next }
/^[^ \t]/ { section = $1; next }
section == "COLUMNS" { take_column() }
section == "BOUNDS" { take_bound() }
section == "SOS" { take_member() }
section == "ARCS" && $4 + 0 != 0 { is_now($3, "column with an arc") }

END {
    for (i = 1; i <= columns; i++) {
        column = name[i]
        if (kinds[column] == "") continue
        no_low = (column in low) && low[column] == "none" && !(column in semi)
        no_high = !(column in high) || high[column] == "none"
        if (!no_low && !no_high) continue
        missing = no_low && no_high ? "no low and no high end" : no_low ? "no low end" : "no high end"
        where = count[column] == 0 ? "no bounds" : (count[column] == 1 ? "bounds at line" : "bounds at lines") bounds[column]
        print column ": " kinds[column] ", " missing ", " where
        found = 1
    }
    exit found
}
