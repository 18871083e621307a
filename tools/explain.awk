# What tools/explain runs: the bytes of a sheet in decimal, a line `printed` and what the check printed make a sentence; a line `numbers`
# makes the list of what the numbers say. A number of the bytes is told only if it is small, since awk counts in floating point; ends of
# ranges are told as they were printed.
BEGIN {
    # what a number says; a new number gets a line here, and one in at_byte or at_step if there is more to tell
    says[5] = "the bytes end early"
    says[6] = "a number is not in its shortest form, or is 2^64 or more"
    says[7] = "an operator is unknown"
    says[8] = "an operand names no earlier step"
    says[9] = "the low end of an input is above its high end"
    says[10] = "there are more than 256 steps"
    says[11] = "bytes are left over"
    says[12] = "the divisor may be 0"
    says[13] = "the result may not fit 64 bits"
    says[14] = "a condition, or an operand of and, or, not, may be neither 0 nor 1"
    says[15] = "the inputs of a run are too many, too few or out of their ranges"
    says[16] = "the lent room is too short"
    # the operators from 0 on, each with how many fields it has
    split("constant 1 input 2 add 2 sub 2 mul 2 div 2 mod 2 = 2 and 2 or 2 < 2 > 2 <= 2 >= 2 not 1 same 1 choose 3", word, " ")
    for (i = 1; i in word; i += 2) { name[(i - 1) / 2] = word[i]; fields[(i - 1) / 2] = word[i + 1] }
}

# ---- the bytes

# The number at a place; `after` is the place behind it, and past the end if the bytes end in it.
function number(place,    value, scale) {
    value = 0
    scale = 1
    for (after = place + 1; after <= size; after++) {
        value += byte[after - 1] % 128 * scale
        scale *= 128
        if (byte[after - 1] < 128) return value
    }
    return value
}

# Reads until a place or to the end of a step. Then `steps` is the count of steps, `step` the one that it came to (-1: the count), and
# `is` the numbers of that step so far, the operator first.
function walk(place, until,    here, f) {
    step = -1
    steps = number(0)
    here = after
    if (place == 0 || here > size) return
    for (step = 0; step < steps; step++) {
        for (f = 0; f == 0 || f <= fields[is[0]]; f++) {
            if (here >= place) return
            is[f] = number(here)
            here = after
            if (here > size) return
        }
        if (step == until) return
    }
}

function small(n) { return n < 1000000000 }
function signed(n) { return n % 2 ? -(n + 1) / 2 : n / 2 }

# ---- a refused byte

function counted(n) { return n (n == 1 ? " step" : " steps") }
function where() { return step < 0 ? "in the count of steps" : "in step " step }

function at_byte(number_of, place,    n, length_of) {
    walk(place, -1)
    n = number(place)
    length_of = after - place
    if (number_of == 5 && size == 0) return "there are none, and a sheet begins with the count of its steps"
    if (number_of == 5 && step < 0) return "the count of steps is not complete"
    if (number_of == 5) return "they end at byte " place ", before step " step " is complete, and the sheet counts " counted(steps)
    if (number_of == 6) return "it begins at byte " place ", " where() ", and " (length_of <= 10 && byte[after - 1] == 0 ? "its last byte, 00, is not needed" : "has more than 64 bits")
    if (number_of == 7) return "that of step " step ", at byte " place (small(n) ? ", is " n : ", has " length_of " bytes")
    if (number_of == 8) return "step " step " names " (small(n) ? "step " n : "a step by a number of " length_of " bytes") ", at byte " place
    if (number_of == 9) return "it is step " step (small(is[1]) && small(n) ? ", from " signed(is[1]) " to " signed(n) : "") ", with its high end at byte " place
    if (number_of == 10) return small(n) ? "the count says " n : "the count has " length_of " bytes"
    if (number_of == 11) return "the sheet counts " counted(steps) ", and it ends before byte " place
    return "at byte " place
}

# ---- a refused step

function low(k) { return substr(range[k], 2, index(range[k], ",") - 2) }
function high(k) { return substr(range[k], index(range[k], ", ") + 2, length(range[k]) - index(range[k], ", ") - 2) }

function in_digits(text) { return text == "inf" ? "9223372036854775807" : text == "-inf" ? "-9223372036854775808" : text }

# Whether all of line k is 0 or 1; and where it isn't, a number of it that is neither: an end, since the ends are of the line's spacing too.
function logical(k) { return low(k) ~ /^[01]$/ && high(k) ~ /^[01]$/ }
function beside_bits(k) { return in_digits(high(k) ~ /^[01]$/ ? low(k) : high(k)) }

function shows(k) { return "line " k " shows " range[k] }

function spelled() {
    if (fields[is[0]] == 1) return "the " name[is[0]] " of step " is[1]
    if (fields[is[0]] == 2) return "the " name[is[0]] " of steps " is[1] " and " is[2]
    return "the " name[is[0]] " of steps " is[1] ", " is[2] " and " is[3]
}

# the operands that may be neither 0 nor 1, and a number of the first of them
function not_logical(    two, first, text) {
    two = name[is[0]] == "and" || name[is[0]] == "or"
    first = logical(is[1]) ? is[2] : is[1]
    text = shows(first)
    if (name[is[0]] == "choose") text = text " for the condition"
    if (two && first == is[1] && is[2] != first && !logical(is[2])) text = text ", " shows(is[2])
    return text ", and " beside_bits(first) " in line " first " stops the step"
}

function too_wide() {
    if (name[is[0]] == "div" || name[is[0]] == "mod") return shows(is[1]) ", which holds -9223372036854775808 (-inf), and " shows(is[2]) ", which holds -1"
    return is[1] == is[2] ? "and " shows(is[1]) : shows(is[1]) " and " shows(is[2])
}

function at_step(number_of, k,    text) {
    walk(size + 1, k)
    text = "step " k " is " spelled() ", "
    if (number_of == 12) return text shows(is[2]) " for the divisor, and 0 there stops the step"
    if (number_of == 13) return text too_wide()
    if (number_of == 14) return text not_logical()
    return "at step " k
}

# ---- what is read

!printed && $1 == "numbers" { for (i = 5; i in says; i++) printf "%4d  %s\n", i, says[i]; exit }
!printed && $1 == "printed" { printed = 1; next }
!printed { for (i = 1; i <= NF; i++) byte[size++] = $i; next }
/^[0-9]+ \[/ { match($0, /\[[^]]*\]/); range[$1] = substr($0, RSTART, RLENGTH); next }
/^refused / {
    why = $NF
    text = why in says ? says[why] : "docs/FORMAT.md tells what this number says"
    if ($3 == "byte") text = text "; " at_byte(why, $4 + 0)
    if ($3 == "step") text = text "; " at_step(why, $4 + 0)
    print "  " why ": " text "."
}
