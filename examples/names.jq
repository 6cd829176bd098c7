# Adds the label of the device, from the last answer to `list`, to each reading line.
foreach (inputs | fromjson?) as $line (
    {};
    if $line.type == "device" then .[$line.id] = $line.label else . end;
    if $line.type == "reading" then $line + {label: .[$line.id]} else $line end
)
