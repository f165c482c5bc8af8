# Hexadecimal text, and numbers below 2^53, which awk holds exactly.

# The number that lowercase hexadecimal text stands for.
function number(text, i, value) {
    for (i = 1; i <= length(text); i++)
        value = value * 16 + index("123456789abcdef", substr(text, i, 1))
    return value + 0
}

# A number as that many hexadecimal digits.
function hex(value, digits, text) {
    while (digits-- > 0) {
        text = substr("0123456789abcdef", value % 16 + 1, 1) text
        value = int(value / 16)
    }
    return text
}

# Bits low to low + width - 1 of a number.
function bits(value, low, width) {
    return int(value / 2 ^ low) % 2 ^ width
}

# A number as ones and zeros, highest bit first.
function binary(value, digits, text) {
    while (digits-- > 0) {
        text = value % 2 text
        value = int(value / 2)
    }
    return text
}

# Whether sixteen digits are a word, sign-extended.
function is_word(text) {
    return text ~ /^00000000[0-7]/ || text ~ /^ffffffff[89a-f]/
}

# Sixteen digits in decimal, signed, where awk is exact there; else nothing.
function decimal(text) {
    if (substr(text, 1, 3) ~ /^00[01]$/)
        return sprintf("%.0f", number(text))
    if (is_word(text))
        return sprintf("%.0f", number(substr(text, 9)) - 4294967296)
    return ""
}

# Bytes in hexadecimal as characters, a dot for what cannot be printed.
function characters(text, i, code, out) {
    for (i = 1; i < length(text); i += 2) {
        code = number(substr(text, i, 2))
        out = out (code >= 32 && code < 127 ? sprintf("%c", code) : ".")
    }
    return out
}

# Sixteen digits as an address: eight where they are a word, else all.
function address(text) {
    return is_word(text) ? substr(text, 9) : text
}

# A line of somebody's text, fit to be shown: its first characters, those that cannot be printed as '?'.
function shown(text, most) {
    text = substr(text, 1, most)
    gsub(/[^ -~]/, "?", text)
    return text
}
