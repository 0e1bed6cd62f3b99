# Prints the refusals' numbers by the names that C has for them, from the Rattle source of the crate 'refusals'.
/^    [A-Za-z]+ = [0-9]+,$/ {
    name = ""
    for (i = 1; i <= length($1); i++) {
        c = substr($1, i, 1)
        name = name ((c ~ /[A-Z]/ && i > 1) ? "_" : "") toupper(c)
    }
    sub(/,$/, "", $3)
    print "ROMULUS_" name " = " $3
}
