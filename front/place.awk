# Reads an image's text and says where a program sees its RAM: the pages of the TLB slots, else 80000000 upward; and for which ASIDs.
# A second frame at one address is a layer of its own. Needs hex.awk, names.awk, frames.awk and fields.awk.

FILENAME ~ /image\.text$/ { text[++lines] = $0; next }

# The slots and CP0 moves up to the budget, the last of each; where each RAM frame is seen, and which layer it is.
function read_image(i, last) {
    for (last = 1; last <= lines; last++)
        if (!frame_fault(text[last])) {
            if (text[last] ~ /^03/) break
            if (text[last] ~ /^05/) slot[number(substr(text[last], 3, 2))] = substr(text[last], 5)
            if (text[last] ~ /^04/) move[number(substr(text[last], 3, 2))] = number(substr(text[last], 13))
        }
    for (i in slot)
        if (bits(half_of(i, 0), 1, 1) || bits(half_of(i, 1), 1, 1))
            count_space(space_of(i))
    for (i = 1; i < last; i++)
        if (text[i] ~ /^02/ && !frame_fault(text[i])) {
            seen[i] = seen_at(number(substr(text[i], 3, 8)))
            layer_of[i] = ++times[hex(seen[i], 8)] # as text: large numbers are no exact keys
        }
}

# Counts an ASID that was not there yet.
function count_space(space) {
    if (space != "global" && !(space in counted)) {
        counted[space]
        spaces++
    }
}

# The virtual address of a physical one: by the lowest slot that has a valid page there, else unmapped.
function seen_at(physical, page) {
    page = int(physical / 4096)
    if (!(page in page_seen))
        look_at(page)
    return page_seen[page] + physical % 4096
}

# The slots of a physical page: where the lowest shows it, and for which ASIDs they are.
function look_at(page, place, half, lo, k, size, base, start) {
    page_seen[page] = 2147483648 + page * 4096
    for (place = 0; place < 48; place++)
        for (half = 0; half < 2; half++) {
            if (!(place in slot)) continue
            lo = half_of(place, half)
            k = mask_size(number(substr(slot[place], 1, 8)))
            size = 4096 * 4 ^ k
            base = bits(lo, 6 + 2 * k, 24 - 2 * k) * size
            start = int(number(substr(slot[place], 9, 8)) / (2 * size)) * 2 * size + half * size
            if (!bits(lo, 1, 1) || page * 4096 < base || page * 4096 >= base + size) continue
            if (owners[page] == "")
                page_seen[page] = start + page * 4096 - base
            if (index("," owners[page] ",", "," space_of(place) ",") == 0)
                owners[page] = owners[page] (owners[page] == "" ? "" : ",") space_of(place)
        }
    if (length(owners_of(page)) > widest)
        widest = length(owners_of(page))
}

# The EntryLo of a slot's half.
function half_of(place, half) {
    return number(substr(slot[place], 17 + 8 * half, 8))
}

# The ASID of a slot, or that it is global.
function space_of(place) {
    return half_of(place, 0) % 2 && half_of(place, 1) % 2 ? "global" : number(substr(slot[place], 9, 8)) % 256
}

# For which ASIDs slots have a physical page, the first four of them; a global slot is for all.
function owners_of(page, part, count) {
    if (owners[page] == "") return ""
    if (index("," owners[page] ",", ",global,")) return "global"
    count = split(owners[page], part, ",")
    return "ASID " (count > 4 ? part[1] "," part[2] "," part[3] "," part[4] ".." : owners[page])
}

# The same as a column of a list, where slots with a valid page are of more than one ASID.
function space_words(physical) {
    return spaces > 1 ? sprintf(" %-" widest "s", owners_of(int(physical / 4096))) : ""
}
