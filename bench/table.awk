# A case whose nanoseconds are 0 was not timed. Reads lines 'case|port ns|Rust ns' or 'case|port ns|Rust ns|operations|port instructions|Rust instructions' and prints the table. Behind each ack of the
# tracker, the mean of a transmit and an ack at the same length: an event.
BEGIN {
    FS = "|"
    print "| Operation | port, ns | Rust, ns | ratio | port, instructions | Rust, instructions | ratio |"
    print "|---|---|---|---|---|---|---|"
}
function row(name, port, rust, port_count, rust_count) {
    if (!rust)
        printf "| %s | | | | %d | %d | %.2f |\n", name, port_count, rust_count, port_count / rust_count
    else if (rust_count)
        printf "| %s | %d | %d | %.2f | %d | %d | %.2f |\n", name, port, rust, port / rust, port_count, rust_count, port_count / rust_count
    else
        printf "| %s | %d | %d | %.2f | | | |\n", name, port, rust, port / rust
    fflush()
}
{
    port_count = $4 ? $5 / $4 : 0
    rust_count = $4 ? $6 / $4 : 0
    row($1, $2, $3, port_count, rust_count)
    what = $1
    if (sub(/^transmit /, "", what)) {
        ns[what] = $2; rust_ns[what] = $3; count[what] = port_count; rust_of[what] = rust_count
    }
    if (sub(/^ack /, "", what))
        row("event " what, (ns[what] + $2) / 2, (rust_ns[what] + $3) / 2, (count[what] + port_count) / 2, (rust_of[what] + rust_count) / 2)
}
