# What is said of a finished image. Needs reach.awk and what that needs.
END {
    read_image()
    print_reach()
}
