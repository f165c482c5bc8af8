# Each frame of an image in words, with what the reader would refuse. Needs reach.awk and what that needs.

{ code[$1 " " $2] = substr($0, length($1) + length($2) + 3) }

END {
    read_image()
    if (size > 65536)
        refuse(5, 0, "")
    for (i = 1; i <= lines; i++)
        list_line(i)
    print_reach()
    if (!budget)
        refuse(8, lines + 1, "no budget frame")
    if (refused != "")
        print "The reader refuses this image: " refused
    exit refused != ""
}

# Keeps the first refusal, which is the one that the reader gives.
function refuse(stop, line, reason) {
    if (refused == "")
        refused = stop ", " (line ? "line " line ": " reason : stop_meaning(stop))
}

function list_line(i, line, fault) {
    line = text[i]
    fault = frame_fault(line)
    if (!fault && budget) {
        fault = 8
        fault_reason = "a frame after the budget"
    }
    if (fault) {
        printf "%4d  %s\n      ^ refused, %d: %s\n", i, shown(line, 200), fault, fault_reason
        refuse(fault, i, fault_reason)
    } else
        list_frame(i, substr(line, 1, 2), number(substr(line, 3, 2)), substr(line, 5))
    if (line ~ /^03/ && !fault)
        budget = i
}

function list_frame(i, tag, place, value) {
    if (tag == "01") print_words(i, register_words(place, value))
    if (tag == "02") list_ram(i, seen[i], substr(text[i], 11))
    if (tag == "03") print_words(i, budget_words(number(substr(text[i], 3))))
    if (tag == "04") list_cp0(i, place, value)
    if (tag == "05") list_slot(i, place, value)
}

function budget_words(steps) {
    return sprintf("budget: %.0f step%s", steps, steps == 1 ? "" : "s")
}

function print_words(i, words) {
    printf "%4d  %s\n", i, words
}

function print_more(words) {
    printf "      %s\n", words
}

function register_words(place, value) {
    if (place == 34)
        return "PC = " address(value)
    return (place < 32 ? "register r" place " (" register_name(place) ")" : register_name(place)) " = " value \
        (decimal(value) == "" ? "" : " (" decimal(value) ")")
}

# The two words of a RAM frame: physical address, where a program sees it and for which ASIDs, the word, its characters, the instruction.
function list_ram(i, at, value, half, word, instruction, physical) {
    physical = number(substr(text[i], 3, 8))
    for (half = 0; half < 2; half++) {
        word = substr(value, 1 + 8 * half, 8)
        instruction = code[layer_of[i] " " hex(at + 4 * half, 8)]
        sub(/^\.word.*/, "", instruction)
        line = sprintf("RAM %s  at %s%s  %s  %-4s  %s", hex(physical + 4 * half, 8), hex(at + 4 * half, 8), space_words(physical), word, \
            characters(word), instruction)
        sub(/ +$/, "", line)
        if (half) print_more(line); else print_words(i, line)
    }
}

function list_cp0(i, place, value) {
    if (!cp0_is_wide(place))
        value = substr(value, 9)
    print_words(i, "CP0 " place " " cp0_name(place) " = " value (cp0_drops_writes(place) ? " (dropped: it cannot be written)" : "") \
        (place == 10 ? " (" entry_hi_words(number(value)) ")" : ""))
    if (place == 12)
        print_more(status_words(number(value)))
}

function list_slot(i, place, value, m, h, a, b) {
    m = number(substr(value, 1, 8))
    h = number(substr(value, 9, 8))
    a = number(substr(value, 17, 8))
    b = number(substr(value, 25))
    print_words(i, "TLB slot " place ": " page_words(m, h, a, b, 0))
    print_more("            " page_words(m, h, a, b, 1))
}
