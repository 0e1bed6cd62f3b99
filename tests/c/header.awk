# Prints what the header says, in the lines that exports.awk prints.
{ all = all " " $0 }
END {
    while (match(all, /\/\*[^*]*\*+([^\/*][^*]*\*+)*\//)) all = substr(all, 1, RSTART - 1) " " substr(all, RSTART + RLENGTH)
    gsub(/[ \t]+/, " ", all)
    rest = all
    while (match(rest, /typedef struct [a-z_]+ \{[^}]*\} [a-z_]+;/)) {
        item = substr(rest, RSTART, RLENGTH)
        rest = substr(rest, RSTART + RLENGTH)
        sub(/^typedef /, "", item)
        sub(/\}[^}]*$/, "}", item)
        print item
    }
    rest = all
    while (match(rest, /ROMULUS_EXPORT [a-z0-9_]+ [a-z0-9_]+\([^)]*\);/)) {
        item = substr(rest, RSTART, RLENGTH)
        rest = substr(rest, RSTART + RLENGTH)
        sub(/^ROMULUS_EXPORT /, "", item)
        sub(/\( /, "(", item)
        print item
    }
    rest = all
    while (match(rest, /ROMULUS_CALL [a-z0-9_]+ romulus_[nmth][0-9]+_[a-z_]+\([^)]*\) \{[^}]*\}/)) {
        item = substr(rest, RSTART, RLENGTH)
        rest = substr(rest, RSTART + RLENGTH)
        sub(/^ROMULUS_CALL /, "inline ", item)
        sub(/\( /, "(", item)
        print item
    }
    rest = all
    gsub(/ROMULUS_CALL/, "inline", rest)
    while (match(rest, /inline [a-z0-9_]+ romulus_post_(make|seal|open|read|retire)\([^)]*\) \{/)) {
        item = substr(rest, RSTART, RLENGTH - 2)
        rest = substr(rest, RSTART + RLENGTH)
        sub(/\( /, "(", item)
        print item
    }
}
