# The code words of one layer of an image as S-records, which objdump reads. Needs hex.awk and place.awk.

END {
    read_image()
    for (i = 1; i <= lines; i++)
        if (layer_of[i] == layer)
            print record("0d" hex(seen[i], 8) substr(text[i], 11))
}

# A record of type 3: its bytes and the complement of their sum.
function record(bytes, i, sum) {
    for (i = 1; i < length(bytes); i += 2)
        sum += number(substr(bytes, i, 2))
    return "S3" bytes hex(255 - sum % 256, 2)
}
