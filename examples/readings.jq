# One reading per line: the device (its label, if it has one, or its ID), the name of the reading,
# and its value. Lines that are not JSON, such as truncated ones, are skipped.
fromjson? | select(.type == "reading")
| ((.label // "" | select(. != "")) // .id) as $device
| .readings[]
| (if .num then .num / .den * 100 | round / 100 else .word // .raw // .out_of_range end) as $value
| [$device, .name, $value, .unit | values | tostring] | join(" ")
