# What the image reader says about one line: document 01's refusals 6 and 7, and why. Needs hex.awk and names.awk.

# The number of characters of a frame by its tag; 0: no such tag in an image.
function frame_length(tag) {
    if (tag == "01" || tag == "04") return 20
    if (tag == "02") return 26
    if (tag == "03") return 10
    if (tag == "05") return 36
    return 0
}

# 0, or the refusal of a line by itself; its reason is left in fault_reason.
function frame_fault(line, want) {
    fault_reason = ""
    want = frame_length(substr(line, 1, 2))
    if (line == "")
        fault_reason = "the line is empty"
    else if (line ~ /\r$/)
        fault_reason = "the line ends with CR and LF, as Windows writes it, and LF alone is wanted: tr -d '\\r' <IMAGE takes the CRs out"
    else if (line ~ /[^0-9a-f]/)
        fault_reason = "a character is not lowercase hexadecimal"
    else if (!want)
        fault_reason = "no frame has the tag " substr(line, 1, 2)
    else if (length(line) != want)
        fault_reason = "a frame " substr(line, 1, 2) " has " want " characters, and this line has " length(line)
    if (fault_reason != "")
        return 6
    fault_reason = value_fault(substr(line, 1, 2), number(substr(line, 3, 2)), line)
    return fault_reason == "" ? 0 : 7
}

# Why the value of an exact frame is not allowed; nothing where it is.
function value_fault(tag, place, line) {
    if (tag == "01" && place > 34)
        return "registers have the numbers 00 to 22"
    if (tag == "01" && place == 0 && line !~ /0000000000000000$/)
        return "r0 can only be 0"
    if (tag == "02" && line !~ /^020000[0-9a-f][0-9a-f][0-9a-f][08]/)
        return "the address must be a multiple of 8, at most 0000fff8"
    if (tag == "04")
        return move_fault(place, number(substr(line, 13)))
    if (tag == "05" && place > 47)
        return "slots have the numbers 00 to 2f"
    if (tag == "05")
        return mask_fault(number(substr(line, 5, 8)))
    return ""
}

# Why a CP0 move is not allowed: the register is not kept, or the low word is a value that is not built.
function move_fault(place, low) {
    if (cp0_name(place) == "")
        return "CP0 register " place " is not kept"
    if (place == 12)
        return status_fault(low)
    if (place == 5)
        return mask_fault(low)
    return ""
}

function status_fault(low) {
    if (bits(low, 29, 3)) return "Status with CU1, CU2 or CU3 is not built"
    if (bits(low, 25, 1)) return "Status with RE is not built"
    if (bits(low, 5, 3)) return "Status with KX, SX or UX is not built"
    if (bits(low, 3, 1)) return "Status with KSU " bits(low, 3, 2) " is not built"
    return ""
}

# The k of a page of 4096 x 4^k bytes by its PageMask; -1: no legal mask.
function mask_size(mask, k) {
    for (k = 0; k <= 6; k++)
        if (mask == (4 ^ k - 1) * 8192)
            return k
    return -1
}

function mask_fault(mask) {
    return mask_size(mask) < 0 ? "PageMask " hex(mask, 8) " is not built" : ""
}
