# Turns the layouts that Structs.antt states into PROVED_OFFSET(struct, field, offset) and PROVED_SIZE(struct, size, alignment), for the structs of structs.awk.
/^use Rattle\..* as [A-Z][A-Za-z]*$/ { sub(/^use Rattle\./, ""); crate[$NF] = substr($0, 1, index($0, ".") - 1); next }
/ : HasLayout / {
    while ($0 !~ /[0-9]$/ && (getline more) > 0) $0 = $0 more # a statement may go over several lines
    name = $4; sub(/\.struct$/, "", name); name = crate[name] "_" name
    text = $0; gsub(/«|»/, "", text)
    offsets = text; sub(/.*\(0 ∷/, "0 ∷", offsets); sub(/ ∷ \[\]\).*/, "", offsets)
    split(offsets, offset, " ∷ ")
    for (i = 1; match(text, /\(d\.[a-z_]+/); i++) {
        field = substr(text, RSTART + 3, RLENGTH - 3); text = substr(text, RSTART + RLENGTH)
        print "PROVED_OFFSET(" name ", " (field == "errno" ? "error" : field) ", " offset[i] ");"
    }
    print "PROVED_SIZE(" name ", " $(NF - 1) ", " $NF ");"
}
