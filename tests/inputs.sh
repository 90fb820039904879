# The inputs that the programs are tried on, for tests to source: lengths, and a table behind them.

standard=examples/standard.lengths

# Calls a function with each input, in the file named first, and with what it is made of.
each_input() { # FILE FUNCTION
    local lengths table size
    # Tables behind document 01's lengths, and the example table behind other lengths and refused ones.
    for table in examples/*.table tests/refused/*.table; do
        cat "$standard" "$table" >"$1"
        "$2" "$table"
    done
    for lengths in examples/*.lengths tests/refused/*.lengths; do
        cat "$lengths" examples/picker.table >"$1"
        "$2" "$lengths"
    done

    # Lengths alone and cut, and a table with no lengths.
    for size in 0 1 91 92; do
        head -c "$size" "$standard" >"$1"
        "$2" "$size bytes of lengths"
    done
    cp examples/picker.table "$1"
    "$2" 'a table alone'

    # By the true length, however long: 64 and 65 lines, a byte more, and sizes around the programs' buffers; behind good lengths and
    # with none.
    for size in 0 1 2944 2990 2991 4003 4004 4005 4095 4096 4097 4140 4141 65536 69690 69691 70000 4600000 4600001; do
        head -c "$size" /dev/zero >"$1"
        "$2" "$size bytes"
        { cat "$standard" && head -c "$size" /dev/zero; } >"$1"
        "$2" "lengths and $size bytes"
    done
}
