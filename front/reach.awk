# What the programs of an image reach by its TLB slots, and what is not promised of it, in lines for reading. A page is reached by a valid half
# of a slot, below 80000000. Needs place.awk and what that needs; read_image() comes first.

# A line for the global slots, for each ASID that has a page, and for the one that an image in User mode begins with.
function print_reach(status, asid, space, words) {
    status = (12 in move) ? move[12] : fresh_status()
    asid = (10 in move) ? move[10] % 256 : 0
    print_space("Every ASID, by global slots,", "global", 0)
    for (space = 0; space < 256; space++)
        print_space("ASID " space, space, mode_name(status) == "User mode" && space == asid)
    print_overlap()
    words = promise_words(status, "this image")
    if (words != "")
        print words
}

# The pages of one ASID, or the global ones; who has none is named only where that must be.
function print_space(who, space, must, i, kept, written) {
    pages = 0
    if (space in counted || space == "global")
        find_pages(space)
    if (!pages && must)
        print who " reaches no page of its own"
    if (!pages)
        return
    reach = who
    for (i = 1; i <= pages; i++)
        if (page_rights[i]) written++; else kept++
    if (kept)
        add_pages(who, 0, " reads " kept " page" (kept == 1 ? "" : "s") ": ")
    if (length(reach) > 160) {
        print reach
        reach = who
        kept = 0
    }
    if (written)
        add_pages(who, 1, (kept ? "; reads and writes " written : " reads and writes " written " page" (written == 1 ? "" : "s")) ": ")
    if (reach != who)
        print reach
}

# Adds the pages that may be written, or those that may not, to the line; what would make it too long begins another.
function add_pages(who, rights, words, i, first, run, last) {
    reach = reach words
    first = 1
    for (i = 1; i <= pages; i = last + 1) {
        last = i
        if (page_rights[i] != rights)
            continue
        while (follows(last)) last++
        run = hex(page_start[i], 8) (last > i ? "-" hex(page_start[last] + 4095, 8) : "") " (" page_words_short(i) ")"
        if (length(reach) + length(run) > 240) {
            print reach
            reach = who (rights ? " also reads and writes " : " also reads ")
            first = 1
        }
        reach = reach (first ? "" : ", ") run
        first = 0
    }
}

# Whether the page after one goes on where it ends, in RAM too, with the same rights.
function follows(i) {
    return i < pages && page_k[i] == 0 && page_k[i + 1] == 0 && page_rights[i] == page_rights[i + 1] && \
        page_start[i + 1] == page_start[i] + 4096 && page_base[i + 1] == page_base[i] + 4096
}

function page_words_short(i) {
    return (page_k[i] ? page_size(page_k[i]) ", " : "") (page_base[i] < 65536 ? "RAM " hex(page_base[i], 4) : "no RAM: physical " hex(page_base[i], 9))
}

# The pages that the slots of an ASID, or the global ones, have below 80000000, in order of address.
function find_pages(space, place, half, lo, k, size, start) {
    for (place = 0; place < 48; place++) {
        if (!(place in slot) || space_of(place) != space)
            continue
        k = mask_size(number(substr(slot[place], 1, 8)))
        size = 4096 * 4 ^ k
        for (half = 0; half < 2; half++) {
            lo = half_of(place, half)
            start = slot_start(place) + half * size
            if (bits(lo, 1, 1) && start < 2147483648)
                keep_page(start, bits(lo, 6 + 2 * k, 24 - 2 * k) * size, k, bits(lo, 2, 1))
        }
    }
}

# Puts a page where it belongs by its address.
function keep_page(start, base, k, rights, i) {
    for (i = ++pages; i > 1 && page_start[i - 1] > start; i--) {
        page_start[i] = page_start[i - 1]
        page_base[i] = page_base[i - 1]
        page_k[i] = page_k[i - 1]
        page_rights[i] = page_rights[i - 1]
    }
    page_start[i] = start
    page_base[i] = base
    page_k[i] = k
    page_rights[i] = rights
}

# Where two slots match one address, valid or not, nothing is reached and the card stops.
function print_overlap(i, j) {
    for (i = 0; i < 48; i++)
        for (j = i + 1; j < 48; j++)
            if ((i in slot) && (j in slot) && slot_start(i) < 2147483648 && overlap(i, j)) {
                print "Slots " i " and " j " match the same addresses: the card stops there (16)"
                return
            }
}

function overlap(i, j) {
    if (space_of(i) != space_of(j) && space_of(i) != "global" && space_of(j) != "global")
        return 0
    return slot_start(i) < slot_start(j) + slot_width(j) && slot_start(j) < slot_start(i) + slot_width(i)
}

function slot_width(place) {
    return 8192 * 4 ^ mask_size(number(substr(slot[place], 1, 8)))
}

function slot_start(place, width) {
    width = slot_width(place)
    return int(number(substr(slot[place], 9, 8)) / width) * width
}
