# Prints a configuration as dense as one may be: 256 relations, of which 252 compute 12 others each, and 4 subtract.
BEGIN {
    printf "{\"namespaces\":{\"user\":{}"
    for (n = 0; n < 4; n++) {
        printf ",\"n%d\":{", n
        for (i = 0; i < 63; i++) {
            printf "%s\"r%d\":{\"rewrite\":{\"union\":[", i ? "," : "", i
            for (j = 0; j < 12; j++) printf "%s{\"computed\":\"r%d\"}", j ? "," : "", (i + j * 5 + 1) % 63
            printf "]}}"
        }
        printf ",\"top\":{\"rewrite\":{\"exclusion\":[{\"computed\":\"r0\"},{\"computed\":\"r1\"}]}}}"
    }
    print "}}"
}
