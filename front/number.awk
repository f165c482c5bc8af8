# Prints the two digits of a register or CP0 register by its name or number in lower case. Needs hex.awk and names.awk.

BEGIN {
    for (place = 0; place <= 34; place++)
        if (is_named(place)) {
            print hex(place, 2)
            exit 0
        }
    exit 1
}

function is_named(place) {
    if (kind == "cp0")
        return cp0_name(place) != "" && !cp0_drops_writes(place) && (name == place "" || name == tolower(cp0_name(place)))
    if (name == tolower(register_name(place)) || name == "fp" && place == 30)
        return 1
    return place < 32 && (name == place "" || name == "r" place)
}
