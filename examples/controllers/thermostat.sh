#!/bin/sh
# A thermostat: it heats below 19.00, doesn't above 21.00, and between goes on as before. Each line
# is a temperature and whether the door is open, such as `18.50 f`. It answers `t` to heat, and else
# `f`. A shell has only whole numbers, so this one counts hundredths of a degree. Its `echo` writes
# each line at once.
heats=f
while read -r temperature door; do
    hundredths=${temperature%.*}${temperature#*.}
    if [ "$hundredths" -lt 1900 ]; then
        heats=t
    elif [ "$hundredths" -gt 2100 ]; then
        heats=f
    fi
    echo "$heats"
done
