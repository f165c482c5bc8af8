# An answer of cardrun or cardstate in words: the image's text first (it may be empty), then the answer.
# Needs hex.awk, names.awk, frames.awk and fields.awk.

FILENAME ~ /image\.text$/ { quoted[++image_lines] = $0; next }
{ answer[++lines] = $0 }

END {
    why = fault_of_answer()
    if (why != "") {
        print why
        exit 1
    }
    if (answer[1] ~ /^0e/)
        explain_refusal(number(substr(answer[1], 3, 2)), number(substr(answer[1], 5)))
    else
        explain_run()
}

# Why the text is no answer; nothing where it is one.
function fault_of_answer(i, refused) {
    if (!lines)
        return "the answer is empty; write: ./card run IMAGE | ./card explain"
    if (answer[1] !~ /^0[ef]/ || !is_answer_line(answer[1]))
        return "this is no answer of cardrun or cardstate: its first line is '" shown(answer[1], 80) \
            "', not a frame 0e or 0f with a number that the card gives" \
            "; " (frame_fault(answer[1]) ? "./card help explain lists these" : "for an image write: ./card list IMAGE")
    refused = answer[1] ~ /^0e/
    for (i = 2; i <= lines; i++)
        if (refused || answer[i] ~ /^0[ef]/ || !is_answer_line(answer[i]))
            return "line " i " does not belong in an answer: '" shown(answer[i], 80) "'"
    if (!refused && !has_pc())
        return "the answer is cut short: it has no PC; write: ./card run IMAGE | ./card explain"
    return ""
}

function has_pc(i) {
    for (i = 2; i <= lines; i++)
        if (answer[i] ~ /^0122/)
            return 1
    return 0
}

function is_answer_line(line) {
    if (line ~ /[^0-9a-f]/) return 0
    if (line ~ /^0e/) return line ~ /^0e0[1-8]/ && length(line) == 12
    if (line ~ /^0f/) return line ~ /^0f(00|1[0-2])/ && length(line) == 12
    if (line ~ /^0a/) return length(line) == 22
    return line !~ /^03/ && !frame_fault(line)
}

function explain_refusal(stop, line) {
    print "Refused: " stop ", " stop_meaning(stop) "."
    if (stop >= 6 && stop <= 8) {
        print "Line: " line
        quote_line(stop, line)
    }
    print "What to do: " stop_advice(stop) "."
}

# The line that a refusal names, where the image is given, with what is wrong in it.
function quote_line(stop, line) {
    if (ENVIRON["IMAGE"] == "")
        print "  (give the image as --image IMAGE to see the line)"
    else if (stop != refusal_at(line))
        print "  (the image given is not the one that was refused: the reader would not say this of its line " line ")"
    else if (line > image_lines)
        print "  the image ends " (image_lines ? "at line " image_lines : "before its first line") ", with no budget frame"
    else {
        print "  in the image: '" shown(quoted[line], 200) "'"
        print "  " fault_reason
    }
}

# What the reader says of a line of the image given, were those before it in order; the reason is left in fault_reason.
function refusal_at(line, i, fault) {
    for (i = 1; i < line && i <= image_lines; i++)
        if (quoted[i] ~ /^03/)
            budget_before = 1
    if (line > image_lines)
        return line == image_lines + 1 && !budget_before ? 8 : 0
    if (line < 1)
        return 0
    fault = frame_fault(quoted[line])
    if (fault != 6 && line == image_lines && ENVIRON["ENDED"] == "") {
        fault_reason = "the line is not ended by LF"
        return 6
    }
    if (!fault && budget_before) {
        fault_reason = "a frame after the budget"
        return 8
    }
    return fault
}

function explain_run(i, tag, place) {
    stop = number(substr(answer[1], 3, 2))
    for (i = 2; i <= lines; i++) {
        tag = substr(answer[i], 1, 2)
        place = number(substr(answer[i], 3, 2))
        if (tag == "01") register[place] = substr(answer[i], 5)
        if (tag == "04") cp0[place] = substr(answer[i], 5)
        if (tag == "0a") pending = substr(answer[i], 3)
        if (tag == "05") slot[place] = substr(answer[i], 5)
        if (tag == "02") { ram_address[++ram_frames] = substr(answer[i], 3, 8); ram_bytes[ram_frames] = substr(answer[i], 11) }
    }
    print "Stop " stop ": " stop_meaning(stop) "."
    print "What to do: " stop_advice(stop) "."
    if (ENVIRON["IMAGE"] != "") explain_image()
    printf "Steps: %.0f\n", number(substr(answer[1], 5))
    explain_registers()
    if (pending != "") explain_pending()
    if (12 in cp0) explain_cp0()
    if (0 in slot) explain_slots()
    if (ram_frames) explain_ram()
    if (pending != "" && !(47 in slot))
        print "This state is cut short: a whole one has 48 TLB slots and then the RAM that is not 0."
}

# Whether anything is promised of the image given, by the Status that it leaves; none that the reader refuses was run.
function explain_image(i, status, words) {
    status = fresh_status()
    for (i = 1; i <= image_lines && !frame_fault(quoted[i]) && quoted[i] !~ /^03/; i++)
        if (quoted[i] ~ /^040c/)
            status = number(substr(quoted[i], 13))
    words = promise_words(status, "this image")
    if (i != image_lines || frame_fault(quoted[i]) || ENVIRON["ENDED"] == "")
        print "  (the image given is not the one that was run: the reader refuses it)"
    else if (words != "")
        print words
}

function explain_registers(place, line, count) {
    print "PC: " address(register[34])
    print "Registers that are not 0:"
    for (place = 0; place <= 33; place++)
        if (place in register && register[place] !~ /^0+$/) {
            line = sprintf("  %-4s %-4s %s  %s", place < 32 ? "r" place : "", register_name(place), register[place], decimal(register[place]))
            sub(/ +$/, "", line)
            print line
            count++
        }
    if (!count)
        print "  none"
}

function explain_pending() {
    if (substr(pending, 1, 2) != "00")
        print "Delay slot: the next step stands in one; then PC becomes " address(substr(pending, 3, 16))
    else
        print "Delay slot: none pending"
    print "Link bit (LL and SC): " (substr(pending, 19) == "00" ? "clear" : "set")
}

function explain_cp0(status, cause, place, value) {
    status = number(substr(cp0[12], 9))
    cause = number(substr(cp0[13], 9))
    if (bits(status, 1, 1))
        print "Exception under way: " exception_words(cause) "; at " address(cp0[14]) (bits(cause, 31, 1) ? ", in the slot of that branch" : "")
    else if (bits(cause, 2, 5))
        print "Exception: none under way; the last one was " exception_words(cause)
    else
        print "Exception: none under way; the last one was an interrupt, or there was none"
    print "Status " hex(status, 8) ": " status_fields(status)
    print "  " status_words(status)
    if (promise_words(status, "") != "")
        print "  " promise_words(status, "what runs from here")
    print "Cause " hex(cause, 8) ": " cause_fields(cause)
    print "CP0 registers:"
    for (place = 0; place < 32; place++)
        if (place in cp0) {
            value = cp0_is_wide(place) ? cp0[place] : substr(cp0[place], 9)
            printf "  %-2d %-8s %16s%s\n", place, cp0_name(place), value, cp0_remark(place)
        }
}

# What is worth saying of a CP0 register beside its value.
function cp0_remark(place, value) {
    value = number(substr(cp0[place], 9))
    if (place == 0) return bits(value, 31, 1) ? "  no match at the last TLBP" : "  slot " value
    if (place == 1 || place == 6) return "  slot " value
    if (place == 5) return "  " page_size(mask_size(value))
    if (place == 9 || place == 11) return sprintf("  %.0f", value)
    if (place == 10) return "  " entry_hi_words(value)
    return ""
}

function explain_slots(place, fresh, m, h, a, b) {
    print "TLB slots (each of two pages):"
    for (place = 0; place < 48; place++) {
        if (!(place in slot)) continue
        m = number(substr(slot[place], 1, 8))
        h = number(substr(slot[place], 9, 8))
        a = number(substr(slot[place], 17, 8))
        b = number(substr(slot[place], 25))
        if (slot_is_fresh(place, m, h, a, b)) {
            fresh++
            continue
        }
        printf "  slot %-2d %s\n", place, page_words(m, h, a, b, 0)
        printf "          %s\n", page_words(m, h, a, b, 1)
    }
    if (fresh)
        print "  " (fresh == 48 ? "all" : fresh " others") " as in a fresh machine: page 80000000 + slot x 2000h, not valid"
}

function explain_ram(i) {
    print "RAM that is not 0, by physical address:"
    for (i = 1; i <= ram_frames; i++)
        printf "  %s  %s %s  |%s|\n", ram_address[i], substr(ram_bytes[i], 1, 8), substr(ram_bytes[i], 9), characters(ram_bytes[i])
}
