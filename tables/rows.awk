# Turns a table of this folder into rows of a C array: awk -v texts=N -f tables/rows.awk TABLE.
# Columns stand a tab apart; those before column N are numbers, and `-` among them is NONE.
BEGIN { FS = "\t" }
/^#/ { next }
{
    row = ""
    for (i = 1; i <= NF; i++)
        row = row (i > 1 ? ", " : "") (i >= texts ? "\"" $i "\"" : $i == "-" ? "NONE" : $i)
    print "{" row "},"
}
