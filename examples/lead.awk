# The mean lead of a brain in a cup of two, or in a season of two, and its standard error:
#   ants cup .. --games --seeds K | awk -v brain=NAME -f examples/lead.awk
# The fields of a game's line are: game G red A black B seed S WORLD RED BLACK. Without --seeds it has no seed. In a
# season the game's name follows.
BEGIN { FS = "[ ,:]+" }
/^game/ { world = $7 == "seed" ? 9 : 7; red = $(world + 1); black = $(world + 2) }
/^game/ && (red == brain || black == brain) {
    lead[$world (world == 9 ? " " $8 : "")] += black == brain ? $6 - $4 : $4 - $6
}
END {
    for (pair in lead) { n++; sum += lead[pair]; squares += lead[pair] ^ 2 }
    if (n < 2) { print "this takes two pairs of games or more"; exit 1 }
    mean = sum / n
    error = sqrt((squares / n - mean ^ 2) / (n - 1))
    printf "%d pairs of games: mean lead %.1f, standard error %.1f\n", n, mean, error
}
