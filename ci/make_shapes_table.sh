#!/usr/bin/env bash
# Writes the shape table that the program `month` reads, crates/month/data/shapes.table, to standard output. The table has
# days of 48 periods and, for category 10, an entry for every seventh day. The third rests on little data.
set -eu

# A number of 16 bits, the low byte first.
u16() {
    local number
    for number in "$@"; do
        printf "\\x$(printf %02x $((number % 256)))\\x$(printf %02x $((number / 256)))"
    done
}

# An entry of the index: its day, its data count and its row.
entry() {
    printf '\x0a\x00'
    u16 "$@"
}

# The header: periods, entries, rows, zero, index offset, row offset.
u16 48 4 2 0 16 0 48 0
entry 0 812 0
entry 7 640 1
entry 14 35 0
entry 21 790 1
# A day in winter, and one in spring, from midnight on.
u16 61 57 53 50 48 47 46 46 47 50 58 72 95 121 138 142 131 118 109 104 101 99 98 101 108 111 105 100 98 99 106 121 149 184 214 228 231 226 217 205 192 178 161 143 123 104 85 71
u16 54 50 47 45 43 42 41 41 42 46 55 70 89 104 111 110 104 98 93 90 88 87 87 90 95 97 93 88 86 87 92 103 122 145 164 176 182 184 185 186 180 167 149 131 112 94 77 64
