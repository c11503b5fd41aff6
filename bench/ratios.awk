# Compares the lines `product SHARES NANOS CHECKSUM` and `evaluation SHARES NANOS CHECKSUM` of plain.times, rattle.times and
# llvm.times, and ends with status 1 where the kit's build costs too much, and 2 where the checksums differ.
BEGIN {
    most = 3
    unit["product"] = "ns"; parts["product"] = 1; named["product"] = "a product"
    unit["evaluation"] = "us"; parts["evaluation"] = 1000; named["evaluation"] = "an evaluation of 24,000 gates"
}

$1 == "product" || $1 == "evaluation" {
    nanos[FILENAME, $1, $2] = $3
    checksum[FILENAME, $1, $2] = $4
}

function compare(what, shares,    plain, kit, llvm, sum) {
    plain = nanos["plain.times", what, shares]
    kit = nanos["rattle.times", what, shares]
    llvm = nanos["llvm.times", what, shares]
    sum = checksum["plain.times", what, shares]
    if (!sum || checksum["rattle.times", what, shares] != sum || checksum["llvm.times", what, shares] != sum) {
        print "order " shares - 1 ": " named[what] " differs between the programs"
        exit status = 2
    }
    printf "order %d: %s takes %.2f %s in plain C, %.2f times that by the kit's compiler, %.2f times by LLVM\n", \
        shares - 1, named[what], plain / parts[what], unit[what], kit / plain, llvm / plain
    if (kit > most * plain) {
        print "order " shares - 1 ": that is too much: it has to be at most " most " times"
        status = 1
    }
}

END {
    for (shares = 2; shares <= 8 && status != 2; shares *= 2) compare("product", shares)
    for (shares = 2; shares <= 8 && status != 2; shares *= 2) compare("evaluation", shares)
    exit status
}
