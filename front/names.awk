# Names of registers, stops and exceptions, as document 01 and the manuals have them.

function nth(list, place, parts) {
    split(list, parts, "|")
    return parts[place + 1]
}

# A general register, HI, LO or PC by its frame number: the assembler's name.
function register_name(place) {
    if (place == 32) return "HI"
    if (place == 33) return "LO"
    if (place == 34) return "PC"
    return nth("zero|at|v0|v1|a0|a1|a2|a3|t0|t1|t2|t3|t4|t5|t6|t7|s0|s1|s2|s3|s4|s5|s6|s7|t8|t9|k0|k1|gp|sp|s8|ra", place)
}

# A CP0 register that is kept, else nothing.
function cp0_name(place) {
    return nth("Index|Random|EntryLo0|EntryLo1|Context|PageMask|Wired||BadVAddr|Count|EntryHi|Compare|Status|Cause|EPC|PRId|Config|LLAddr||||||||||" \
        "|TagLo|TagHi|ErrorEPC|", place)
}

# Context, BadVAddr, EPC and ErrorEPC have 64 bits.
function cp0_is_wide(place) {
    return place == 4 || place == 8 || place == 14 || place == 30
}

# Random, BadVAddr, PRId and LLAddr drop writes.
function cp0_drops_writes(place) {
    return place == 1 || place == 8 || place == 15 || place == 17
}

function exception_name(code) {
    return nth("Int|Mod|TLBL|TLBS|AdEL|AdES|IBE|DBE|Sys|Bp|RI|CpU|Ov|Tr", code)
}

function exception_meaning(code) {
    return nth("interrupt|store to a page that is not dirty, so not writable|no valid page for a load or a fetch|no valid page for a store" \
        "|bad address of a load or a fetch: unaligned, or not for this mode|bad address of a store: unaligned, or not for this mode" \
        "|nothing answers at the address of a fetch|nothing answers at the address of a load or a store|system call|breakpoint" \
        "|reserved instruction|coprocessor unusable|overflow|trap", code)
}

# The whole sentence of a stop or a refusal.
function stop_meaning(stop) {
    if (stop == 0) return "the budget is used up; the state is the one after that many steps"
    if (stop == 1) return "the RAM's length is not a multiple of 8 in 8 to 16,777,216"
    if (stop == 2) return "the ROM's length is not a multiple of 8 in 0 to 4,194,304"
    if (stop == 3) return "the interrupt lines are above 31 (1f)"
    if (stop == 4) return "the machine has a field outside its range"
    if (stop == 5) return "the image's text is over 65,536 bytes"
    if (stop == 6) return "a line is not an exact frame"
    if (stop == 7) return "a value in a frame is not allowed"
    if (stop == 8) return "the budget frame is missing or not last"
    if (stop == 16) return "two TLB slots match one address; the state is the one before that step"
    if (stop == 17) return "a branch, a jump or ERET stands in a delay slot; the state is the one before that step"
    if (stop == 18) return "a CP0 move of a Status or PageMask value that is not built; the state is the one before that step"
    return ""
}

# What to do about a stop or a refusal.
function stop_advice(stop) {
    if (stop == 0) return "the run is whole; how the program fared its registers say, and ./card state has exceptions; " \
        "to go on further, give a larger budget (frame 03, or --budget of ./card image)"
    if (stop == 2) return "give a boot ROM whose length is a multiple of 8, at most 4 MiB"
    if (stop == 3) return "give lines from 00 to 1f"
    if (stop == 5) return "leave out 02 frames of zeros, since RAM starts as zeros, or make the program smaller"
    if (stop == 6) return "write the frame as tag and digits in lowercase hexadecimal, with no space, and end the line with LF"
    if (stop == 7) return "give the frame a value that the card has; --image IMAGE shows the reason"
    if (stop == 8) return "end the image with one frame 03 and the budget in 8 digits, and nothing after it"
    if (stop == 16) return "look for two slots whose pages overlap, of one ASID or one of them global (./card state shows them); clear one before writing the other"
    if (stop == 17) return "put a nop, or another plain instruction, after the branch or jump that stands before PC"
    if (stop == 18) return "leave CU1 to CU3, RE, KX, SX and UX clear, KSU 0 or 2, and take a PageMask for 4 KiB x 4^k"
    return "this should not happen: please send the image to the bench"
}
