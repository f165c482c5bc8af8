# Holds the table of docs/VECTORS.md to the images, and prints what is missing: awk -f table.awk NAMES TABLE
FNR == NR { name[++names] = $1; next }
/^\|/ {
  rest = $0
  while (match(rest, /`[^`]*`/)) {
    glob = substr(rest, RSTART + 1, RLENGTH - 2)
    rest = substr(rest, RSTART + RLENGTH)
    pattern = glob
    gsub(/\*/, ".*", pattern)
    hits = 0
    for (i = 1; i <= names; i++) if (name[i] ~ ("^" pattern "$")) { hits++; covered[i] = 1 }
    if (!hits) print "no image has the name `" glob "`"
  }
}
END { for (i = 1; i <= names; i++) if (!(i in covered)) print "no pattern covers the image " name[i] }
