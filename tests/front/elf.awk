# An ELF byte by byte, as escapes for printf %b. Words are FIELD=DIGITS for a field of its header, and segment=TYPE:OFFSET:VADDR:FILESZ:MEMSZ:FLAGS,
# in hexadecimal, for a program header. Unless a word says otherwise it is a linked big-endian program for MIPS, with 16 bytes of code at offset 1000h.

BEGIN {
    for (i = 1; i < ARGC; i++) {
        at = index(ARGV[i], "=")
        name = substr(ARGV[i], 1, at - 1)
        value = substr(ARGV[i], at + 1)
        if (name == "segment") {
            split(value, part, ":")
            headers = headers wide(part[1], 8) wide(part[2], 8) wide(part[3], 8) wide(part[3], 8) wide(part[4], 8) wide(part[5], 8) wide(part[6], 8) wide("1000", 8)
            count++
        } else
            field[name] = value
    }
    bytes = "7f454c46" given("class", "01", 2) given("data", "02", 2) "01000000000000000000" given("type", "2", 4) given("machine", "8", 4) "00000001" \
        given("entry", "400000", 8) given("phoff", "34", 8) "00000000" "00000000" "0034" given("phentsize", "20", 4) given("phnum", sprintf("%x", count), 4) \
        "0028" "0000" "0000" headers
    while (length(bytes) < 8192) bytes = bytes "00"
    bytes = bytes "24080005" "1000ffff" "00000000" "0000000d"
    for (i = 1; i < length(bytes); i += 2)
        printf "\\0%o", 16 * digit(substr(bytes, i, 1)) + digit(substr(bytes, i + 1, 1))
    exit
}

function given(name, otherwise, digits) {
    return wide(name in field ? field[name] : otherwise, digits)
}

function wide(text, digits) {
    return substr("00000000" text, length(text) + 9 - digits)
}

function digit(text) {
    return index("0123456789abcdef", text) - 1
}
