# Status, Cause and TLB slots by their fields. Needs hex.awk, names.awk and frames.awk.

function mode_name(status) {
    if (bits(status, 1, 1)) return "Kernel mode, since EXL is 1"
    if (bits(status, 2, 1)) return "Kernel mode, since ERL is 1"
    return bits(status, 3, 2) == 2 ? "User mode" : "Kernel mode"
}

# That isolation promises nothing of something, and why; nothing where it is in User mode with CU0 clear.
function promise_words(status, what) {
    if (mode_name(status) == "User mode" && !bits(status, 28, 1)) return ""
    return mode_name(status) (mode_name(status) == "User mode" ? " with CU0" : "") ": isolation promises nothing of " what
}

# The Status of a fresh machine: BEV and ERL.
function fresh_status() {
    return 4194308
}

function status_fields(status) {
    return "CU0 " bits(status, 28, 1) ", BEV " bits(status, 22, 1) ", IM " binary(bits(status, 8, 8), 8) \
        ", KSU " bits(status, 3, 2) ", ERL " bits(status, 2, 1) ", EXL " bits(status, 1, 1) ", IE " bits(status, 0, 1)
}

# What the Status fields come to, in words.
function status_words(status, vectors, interrupts) {
    vectors = bits(status, 22, 1) ? "BFC00200 (boot ROM)" : "80000000 (RAM)"
    interrupts = !bits(status, 0, 1) ? "off" : bits(status, 1, 2) ? "held back by EXL or ERL" : "on"
    return mode_name(status) "; exception vectors at " vectors "; interrupts " interrupts
}

function cause_fields(cause) {
    return "BD " bits(cause, 31, 1) ", CE " bits(cause, 28, 2) ", IP " binary(bits(cause, 8, 8), 8) ", ExcCode " bits(cause, 2, 5)
}

# The exception that Cause names, in words.
function exception_words(cause, code) {
    code = bits(cause, 2, 5)
    return exception_name(code) == "" ? "code " code ", no exception of this card" : \
        exception_name(code) ": " exception_meaning(code) (code == 11 ? ", unit " bits(cause, 28, 2) : "")
}

function page_size(k) {
    return k < 4 ? nth("4 KiB|16 KiB|64 KiB|256 KiB", k) : nth("1 MiB|4 MiB|16 MiB", k - 4)
}

# EntryHi, without the bits that it does not keep.
function entry_hi_words(entry_hi) {
    return "page " hex(entry_hi - entry_hi % 8192, 8) ", ASID " entry_hi % 256
}

# One half of a slot as a page: virtual range, owner, frame, rights.
function page_words(mask, entry_hi, lo0, lo1, half, k, size, start, lo, frame) {
    k = mask_size(mask)
    size = 4096 * 4 ^ k
    start = int(entry_hi / (2 * size)) * 2 * size + half * size
    lo = half ? lo1 : lo0
    frame = bits(lo, 6, 24)
    return hex(start, 8) ".." hex(start + size - 1, 8) ", " (lo0 % 2 && lo1 % 2 ? "global" : "ASID " entry_hi % 256) \
        ", frame " hex(frame, 6) " (physical " hex((frame - frame % 4 ^ k) * 4096, 9) "), " (bits(lo, 1, 1) ? "valid" : "not valid") \
        ", " (bits(lo, 2, 1) ? "dirty (writable)" : "not dirty (read only)") ", " page_size(k)
}

# Whether a slot is as the fresh machine has it.
function slot_is_fresh(slot, mask, entry_hi, lo0, lo1) {
    return !mask && !lo0 && !lo1 && entry_hi == 2147483648 + slot * 8192
}
